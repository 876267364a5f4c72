/* How much stack each call takes on the longest frame with the most jobs: each runs on a stack of its own that
 * was filled with one byte, and the part where that byte is gone was used. What a thread takes that calls nothing is
 * taken off. The last line counts. */
#define _POSIX_C_SOURCE 200809L
#include "hut.h"

#include <pthread.h>
#include <stdio.h>
#include <stdlib.h>
#include <string.h>

enum { ROOM = 1 << 20, FILL = 0xA5, JOBS = 64, SLOTS = 1024, MOST_EDGES = 256 };

static uint8_t list[HUT_LIST_BYTES(JOBS, MOST_EDGES)], plan[HUT_MOST_PLAN_BYTES], out[HUT_MOST_PLAN_BYTES];
static uint8_t store[HUT_MOST_STORE_BYTES];
static uint16_t needs[HUT_MOST_JOBS];
static size_t list_bytes, plan_bytes;
static struct hut_running running;

static struct hut_answer build(void) { return hut_build(list, list_bytes, out, sizeof out); }
static struct hut_answer check(void)
{
    const uint8_t *lo = plan + list_bytes;
    return hut_check(list, list_bytes, lo, SLOTS, lo + SLOTS, SLOTS);
}
/* With table HI all idle the first switch goes wrong: 10 is what is expected, and counts as 0. */
static struct hut_answer why(void)
{
    memset(out, HUT_IDLE, SLOTS);
    struct hut_answer a = hut_why(list, list_bytes, plan + list_bytes, SLOTS, out, SLOTS, needs);
    a.number = a.number != 10;
    return a;
}
static struct hut_answer read_plan(void) { return hut_read(plan, plan_bytes).answer; }
static struct hut_answer write_plan(void)
{
    const uint8_t *lo = plan + list_bytes;
    return hut_write(list, list_bytes, lo, SLOTS, lo + SLOTS, SLOTS, out, sizeof out);
}
static struct hut_answer open_plan(void)
{
    running = hut_open(plan, plan_bytes, 0);
    return running.answer;
}
static struct hut_answer step(void) { return hut_step(&running.state, 0, 0); }

/* The store holds the plan already, so that the walk reads it too. */
static struct hut_answer log_append(void) { return hut_log_append(store, sizeof store, plan, plan_bytes).answer; }
static struct hut_answer log_newest(void) { return hut_log_newest(store, sizeof store).answer; }
static struct hut_answer log_previous(void) { return hut_log_previous(store, sizeof store, plan_bytes).answer; }
static struct hut_answer log_room(void) { return hut_log_room(store, sizeof store, plan, plan_bytes).answer; }
/* The first write is that of the store's last byte: any other place counts as a no. */
static struct hut_answer log_write(void)
{
    const struct hut_log_byte w = hut_log_write(sizeof store, 0, plan, plan_bytes, 0);
    const struct hut_answer a = {.number = w.place != sizeof store - 1};
    return a;
}

static struct hut_answer nothing(void)
{
    const struct hut_answer yes = {.number = 0};
    return yes;
}

static const struct {
    const char *name;
    struct hut_answer (*call)(void);
    size_t most;
} calls[] = {
    {"nothing", nothing, ROOM},
    {"hut_build", build, HUT_STACK_BUILD},
    {"hut_check", check, HUT_STACK_CHECK},
    {"hut_why", why, HUT_STACK_WHY},
    {"hut_read", read_plan, HUT_STACK_READ},
    {"hut_write", write_plan, HUT_STACK_WRITE},
    {"hut_open", open_plan, HUT_STACK_OPEN},
    {"hut_step", step, HUT_STACK_STEP},
    {"hut_log_append", log_append, HUT_STACK_LOG_APPEND},
    {"hut_log_newest", log_newest, HUT_STACK_LOG_NEWEST},
    {"hut_log_previous", log_previous, HUT_STACK_LOG_PREVIOUS},
    {"hut_log_room", log_room, HUT_STACK_LOG_ROOM},
    {"hut_log_write", log_write, HUT_STACK_LOG_WRITE},
};

/* 64 high jobs with all the time there is, each before the next four: 246 edges. */
static void put_list(void)
{
    uint8_t *edge = list + HUT_LIST_BYTES(JOBS, 0);
    size_t edges = 0;
    list[0] = JOBS;
    list[5] = SLOTS >> 8;
    for (size_t j = 0; j < JOBS; j++) {
        uint8_t *job = list + HUT_LIST_BYTES(j, 0);
        job[3] = SLOTS >> 8;
        job[4] = 1;
        job[6] = 2;
        job[8] = 1;
        for (size_t k = j + 1; k <= j + 4 && k < JOBS; k++, edges++) {
            *edge++ = (uint8_t)j;
            *edge++ = (uint8_t)k;
        }
    }
    list[2] = (uint8_t)edges;
    list_bytes = HUT_LIST_BYTES(JOBS, edges);
}

static void *run(void *which)
{
    size_t *k = which;
    *k = calls[*k].call().number;
    return NULL;
}

/* The bytes of stack that a call takes, with what the thread itself takes; all of them where it does not answer 0. */
static size_t taken(size_t which)
{
    uint8_t *stack = aligned_alloc(4096, ROOM);
    pthread_attr_t on;
    pthread_t thread;
    size_t free_bytes = 0;
    memset(stack, FILL, ROOM);
    pthread_attr_init(&on);
    pthread_attr_setstack(&on, stack, ROOM);
    if (pthread_create(&thread, &on, run, &which) != 0 || pthread_join(thread, NULL) != 0 || which != 0) {
        return ROOM;
    }
    while (free_bytes < ROOM && stack[free_bytes] == FILL) {
        free_bytes++;
    }
    free(stack);
    return ROOM - free_bytes;
}

int main(void)
{
    int passed = 0, failed = 0;
    put_list();
    plan_bytes = hut_build(list, list_bytes, plan, sizeof plan).length;
    hut_log_append(store, sizeof store, plan, plan_bytes);
    const size_t own = taken(0);
    for (size_t k = 1; k < sizeof calls / sizeof *calls; k++) {
        const size_t all = taken(k), bytes = all > own ? all - own : 0;
        if (bytes <= calls[k].most) {
            passed++;
        } else {
            failed++;
            printf("FAILED: ");
        }
        printf("%s takes %zu bytes of stack, of %zu\n", calls[k].name, bytes, calls[k].most);
    }
    printf("%d passed, %d failed\n", passed, failed);
    return failed != 0;
}

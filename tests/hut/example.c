/* The hut's library, worked through: list A of the paper is built, checked, asked why, read, written, opened and run.
 * Each answer is compared with the paper's. The last line counts. */
#include "expect.h"

#include <string.h>

/* What the proved side has: nine numbers of 8 bytes in an answer; in a state three 16-bit counts, five numbers
 * of 64 jobs, two ends of 256 edges, two tables of 1024 slots, two words and four bytes, 64 counts of units and
 * two times 64 marks. No struct has padding: each size is the sum of its fields'. */
_Static_assert(sizeof(size_t) == 8, "a size has 64 bits in the archive");
_Static_assert(sizeof(struct hut_answer) == 9 * 8, "an answer");
_Static_assert(sizeof(struct hut_read_result) == 12 * 8, "what reading answers");
_Static_assert(sizeof(struct hut_state) == 3 * 2 + 5 * 64 * 2 + 2 * 256 + 2 * 1024 + 2 * 2 + 4 + 64 * 2 + 2 * 64, "a state");
_Static_assert(sizeof(struct hut_state) == HUT_STATE_BYTES, "a state has its bytes and no more");
_Static_assert(offsetof(struct hut_running, state) == sizeof(struct hut_answer), "the state follows the answer");
_Static_assert(sizeof(struct hut_running) == sizeof(struct hut_answer) + HUT_STATE_BYTES + sizeof(uint16_t), "what opening hands back");

static void building(void)
{
    uint8_t out[64];
    memset(out, 0xAA, sizeof out);
    struct hut_answer a = hut_build(list_a, sizeof list_a, out, sizeof out);
    expect("P1: list A is built", bare(a, 0) && a.length == 46 && a.order == NO);
    expect("P1: its plan, to the last byte", memcmp(out, plan_a, 46) == 0);
    expect("P1: the bytes past the plan are as they were", all(out, 46, sizeof out, 0xAA));

    memset(out, 0xAA, sizeof out);
    a = hut_build(list_a, sizeof list_a, out, 45);
    expect("no room is 46", bare(a, 46) && a.length == NO);
    expect("no room: no byte changes", all(out, 0, sizeof out, 0xAA));
    expect("no bytes are 40", bare(hut_build(out, 0, out + 1, 0), 40));

    uint8_t p4[28];
    memcpy(p4, list_a, sizeof p4);
    p4[4] = p4[10] = 3; /* L, and the deadline of job 0 */
    p4[20] = 2;         /* the deadline of job 1 */
    a = hut_build(p4, sizeof p4, out, sizeof out);
    expect("P4: 22 at slot 0", is(a, 22, NO, 0, NO, NO, NO, NO));

    uint8_t p7[30];
    memcpy(p7, list_a, sizeof list_a);
    p7[2] = 1;
    p7[28] = 1;
    p7[29] = 0;
    a = hut_build(p7, sizeof p7, out, sizeof out);
    expect("P7: 8 at edge 0", is(a, 8, NO, NO, NO, NO, NO, 0));

    /* (1, 3, high, 1, 1) and (0, 5, high, 1, 3) */
    static const uint8_t rejected[28] = {
        0x02, 0x00, 0x00, 0x00, 0x05, 0x00, 0x00, 0x00,
        0x01, 0x00, 0x03, 0x00, 0x01, 0x00, 0x01, 0x00, 0x01, 0x00,
        0x00, 0x00, 0x05, 0x00, 0x01, 0x00, 0x03, 0x00, 0x01, 0x00,
    };
    a = hut_build(rejected, sizeof rejected, out, sizeof out);
    expect("24 carries the check's answer: 10, slot 3, job 0, switch 0", is(a, 24, 10, 3, 0, NO, 0, NO));
    expect("all refused builds: no byte changes", all(out, 0, sizeof out, 0xAA));
}

static void checking(void)
{
    static const uint8_t lo[5] = {1, 1, 0, 255, 255};
    static const uint8_t p8[5] = {0, 0, 0, 255, 255};
    static const uint8_t idle[5] = {255, 255, 255, 255, 255};
    static const uint8_t hi[5] = {1, 1, 0, 0, 0};
    static const uint8_t p10[5] = {1, 1, 0, 0, 255};
    static const uint8_t odd[5] = {1, 1, 0, 2, 255};
    struct hut_answer a = hut_check(list_a, 28, lo, 5, p8, 5);
    expect("P8: 10 at slot 5, job 0, after the switch at slot 2", is(a, 10, NO, 5, 0, NO, 2, NO) && a.order == NO && a.length == NO);

    uint8_t p9[30];
    memcpy(p9, list_a, sizeof list_a);
    p9[2] = 1;
    p9[28] = 0;
    p9[29] = 1;
    a = hut_check(p9, 30, lo, 5, idle, 5);
    expect("P9: 12 at slot 0, job 1, predecessor 0, no switch", is(a, 12, NO, 0, 1, 0, HUT_ABSENT, NO));
    expect("P10: yes", bare(hut_check(list_a, 28, p10, 5, hi, 5), 0));
    expect("a table that is too short is 43", bare(hut_check(list_a, 28, lo, 4, hi, 5), 43));
    expect("a byte that is no job is 45", is(hut_check(list_a, 28, odd, 5, hi, 5), 45, NO, 3, NO, NO, NO, NO));
    uint8_t level[28];
    memcpy(level, list_a, 28);
    level[26] = 2;
    expect("a level over 1 is 6, job 1", is(hut_check(level, 28, lo, 5, hi, 5), 6, NO, NO, 1, NO, NO, NO));
}

/* What two jobs need, and 0 in every other entry. */
static int need(const uint16_t *needs, uint16_t first, uint16_t second)
{
    int good = needs[0] == first && needs[1] == second;
    for (size_t j = 2; j < HUT_MOST_JOBS; j++) {
        good = good && needs[j] == 0;
    }
    return good;
}

/* The needs, with entries around them that no call may touch. */
struct lent {
    uint16_t before[8];
    uint16_t needs[HUT_MOST_JOBS];
    uint16_t after[8];
};

static void asking_why(void)
{
    static const uint8_t lo[5] = {1, 1, 0, 255, 255};
    static const uint8_t p8[5] = {0, 0, 0, 255, 255};
    static const uint8_t idle[5] = {255, 255, 255, 255, 255};
    static const uint8_t hi[5] = {1, 1, 0, 0, 0};
    struct lent l;
    memset(&l, 0xAA, sizeof l);
    struct hut_answer a = hut_why(list_a, 28, lo, 5, p8, 5, l.needs);
    expect("P8: why answers as the check does", is(a, 10, NO, 5, 0, NO, 2, NO) && a.order == NO && a.length == NO);
    expect("P8: job 0 needs its CHI of 3, and job 1, which has ended, its 2", need(l.needs, 3, 2));

    uint8_t p9[30];
    memcpy(p9, list_a, sizeof list_a);
    p9[2] = 1;
    p9[28] = 0;
    p9[29] = 1;
    a = hut_why(p9, 30, lo, 5, idle, 5, l.needs);
    expect("P9: 12, and with no switch each job needs CLO", is(a, 12, NO, 0, 1, 0, HUT_ABSENT, NO) && need(l.needs, 1, 2));

    memset(l.needs, 0xAA, sizeof l.needs);
    expect("P1: yes, and no needs", bare(hut_why(list_a, 28, lo, 5, hi, 5, l.needs), 0) && need(l.needs, 0, 0));
    memset(l.needs, 0xAA, sizeof l.needs);
    expect("no bytes are 40, and no needs", bare(hut_why(list_a, 0, lo, 5, hi, 5, l.needs), 40) && need(l.needs, 0, 0));
    expect("nothing around the needs is touched", all(l.before, 0, sizeof l.before, 0xAA) && all(l.after, 0, sizeof l.after, 0xAA));
}

static void reading_and_writing(void)
{
    struct hut_read_result r = hut_read(plan_a, sizeof plan_a);
    expect("P1 is read", bare(r.answer, 0) && r.jobs == 2 && r.edges == 0 && r.slots == 5);

    const uint8_t *lo = plan_a + HUT_LIST_BYTES(r.jobs, r.edges);
    const uint8_t *hi = lo + r.slots;
    uint8_t out[64];
    memset(out, 0xAA, sizeof out);
    struct hut_answer a = hut_write(plan_a, HUT_LIST_BYTES(r.jobs, r.edges), lo, r.slots, hi, r.slots, out, sizeof out);
    expect("what was read is written", bare(a, 0) && a.length == 46);
    expect("as the same bytes", memcmp(out, plan_a, 46) == 0 && all(out, 46, sizeof out, 0xAA));

    memset(out, 0xAA, sizeof out);
    a = hut_write(plan_a, 28, lo, 5, hi, 5, out, 45);
    expect("a write with no room is 46", bare(a, 46) && a.length == NO);
    expect("and changes no byte", all(out, 0, sizeof out, 0xAA));

    memcpy(out, plan_a, 46);
    out[45] = 0x32;
    r = hut_read(out, 46);
    expect("a wrong mark is 41", bare(r.answer, 41) && r.jobs == NO && r.edges == NO && r.slots == NO);
    expect("a byte too many is 41", bare(hut_read(out, 47).answer, 41));
    out[45] = 0x31;
    out[38] = 0x27;
    expect("a wrong distance is 42", bare(hut_read(out, 46).answer, 42));
    out[38] = 0x26;
    out[36] = 1;
    expect("a job in a wrong slot of table HI is the check's no", hut_read(out, 46).answer.number == 10);
    expect("fifteen bytes are 40", bare(hut_read(plan_a, 15).answer, 40));
}

/* How many bytes of two states differ. */
static size_t differing(const struct hut_state *s, const struct hut_state *t)
{
    const uint8_t *x = (const uint8_t *)s, *y = (const uint8_t *)t;
    size_t count = 0;
    for (size_t i = 0; i < sizeof *s; i++) {
        count += x[i] != y[i];
    }
    return count;
}

static void running(void)
{
    struct hut_running o = hut_open(plan_a, sizeof plan_a, 65535);
    expect("P11: opened", bare(o.answer, 0));
    struct hut_state s = o.state;
    expect("P11: 65535 orders job 1", orders(hut_step(&s, 65535, 0), 1));
    expect("P11: 0 is next, job 1 at slot 1", orders(hut_step(&s, 0, 0), 1));

    /* A whole turn of the tick and more: job 1 ends with its second unit, job 0 with its first. */
    static const size_t order[5] = {1, 1, 0, 255, 255};
    static const uint8_t ended[5] = {0, 0, 1, 1, 0};
    int good = 1;
    for (uint32_t k = 2; k < 70000; k++) {
        good = good && orders(hut_step(&s, (uint16_t)(65535 + k), ended[k % 5]), order[k % 5]);
    }
    expect("70,000 ticks, each in its slot", good);

    s = hut_open(plan_a, sizeof plan_a, 0).state;
    expect("P12: 0 orders job 1", orders(hut_step(&s, 0, 0), 1));
    struct hut_state t = s;
    expect("32,769 is 33", bare(hut_step(&t, 32769, 0), 33));
    expect("P12: 65,535 is 33", bare(hut_step(&t, 65535, 0), 33));
    expect("the same tick is 30", bare(hut_step(&t, 0, 0), 30));
    expect("33 and 30 change nothing", memcmp(&t, &s, sizeof s) == 0);
    struct hut_answer a = hut_step(&t, 32767, 0);
    expect("P12: 32,767 is 31", bare(a, 31) && a.order == NO);
    expect("31 halts: the next is 32", bare(hut_step(&t, 1, 0), 32));
    expect("31 changes one byte, and 32 none", differing(&t, &s) == 1);

    /* Half the counter away, with an end: it is dropped with its tick, and what is left is what 31 leaves. */
    struct hut_state half = s;
    a = hut_step(&half, 32768, 1);
    expect("P12: 32,768 is 36", bare(a, 36) && a.order == NO);
    expect("36 halts, and changes nothing else", memcmp(&half, &t, sizeof t) == 0);
    expect("then the next is 32", bare(hut_step(&half, 1, 0), 32));

    /* Any end mark but 0 is an end. */
    struct hut_state u = s;
    t = s;
    expect("an end mark of 1", orders(hut_step(&t, 1, 1), 255));
    expect("an end mark of 200", orders(hut_step(&u, 1, 200), 255));
    expect("leave the same state", memcmp(&t, &u, sizeof t) == 0);
    u = t;
    expect("an end with no job ordered is 34", bare(hut_step(&t, 2, 1), 34));
    expect("34 changes nothing", memcmp(&t, &u, sizeof t) == 0);

    /* Job 0 never ends: it switches after its first unit, and is past CHI after its third. */
    s = hut_open(plan_a, sizeof plan_a, 7).state;
    hut_step(&s, 7, 0);
    hut_step(&s, 8, 0);
    expect("slot 2: job 0", orders(hut_step(&s, 9, 1), 0));
    expect("slot 3, in HI: job 0", orders(hut_step(&s, 10, 0), 0));
    expect("slot 4: job 0", orders(hut_step(&s, 11, 0), 0));
    expect("then 35, job 0", is(hut_step(&s, 12, 0), 35, NO, NO, 0, NO, NO, NO));
    expect("35 halts: the next is 32", bare(hut_step(&s, 13, 0), 32));
}

/* The state, with bytes around it that no call may touch. */
struct guarded {
    uint8_t before[64];
    struct hut_state state;
    uint8_t after[64];
};

static void the_state(void)
{
    struct hut_running o = hut_open(plan_a, 45, 0);
    expect("a refused open", bare(o.answer, 41));
    expect("leaves a state of zeros", all(&o.state, 0, HUT_STATE_BYTES, 0));
    expect("on which a step says 37", bare(hut_step(&o.state, 0, 0), 37));
    expect("and changes nothing", all(&o.state, 0, HUT_STATE_BYTES, 0));

    struct guarded g;
    memset(&g, 0xFF, sizeof g);
    expect("a state of any bytes has an answer", bare(hut_step(&g.state, 0, 0), 37));
    expect("and keeps them all", all(&g.state, 0, HUT_STATE_BYTES, 0xFF));
    o = hut_open(plan_a, sizeof plan_a, 0);
    expect("an open settles its last bytes", o.rest == 0);
    g.state = o.state;
    ((uint8_t *)&g.state)[HUT_STATE_BYTES - 1] = 7;
    hut_step(&g.state, 0, 0);
    expect("a frame opens fresh to the state's last byte", ((uint8_t *)&g.state)[HUT_STATE_BYTES - 1] == 0);
    const struct hut_state was = g.state;
    expect("a refused step", bare(hut_step(&g.state, 0, 0), 30));
    expect("keeps every byte", memcmp(&was, &g.state, sizeof was) == 0);
    expect("no byte around a state is touched", all(g.before, 0, 64, 0xFF) && all(g.after, 0, 64, 0xFF));
}

int main(void)
{
    building();
    checking();
    asking_why();
    reading_and_writing();
    running();
    the_state();
    return counted();
}

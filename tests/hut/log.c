/* The log, worked through: plans are appended to a store, found and listed, and power is lost after each byte that an
 * append writes. `append_on` is how firmware appends to a device. The last line counts. */
#include "expect.h"

#include <string.h>

/* What the proved side has: an answer and two numbers; two numbers. No struct has padding. */
_Static_assert(sizeof(struct hut_log_answer) == 11 * 8, "an answer of the log");
_Static_assert(sizeof(struct hut_log_byte) == 2 * 8, "a byte to write");

enum { STORE_BYTES = 256, MOST_PLANS = 8 };

struct plan {
    const uint8_t *bytes;
    size_t count;
};

/* Three plans: A is the paper's P1; B has the same list and other tables; C has another list, and is longer. */
static uint8_t bytes_b[46], bytes_c[80];
static const struct plan A = {plan_a, sizeof plan_a}, B = {bytes_b, sizeof bytes_b}, C = {bytes_c, sizeof bytes_c};

static void make_plans(void)
{
    static const uint8_t lo[5] = {0, 1, 1, 255, 255}, hi[5] = {0, 0, 0, 255, 255};
    struct hut_answer a = hut_write(list_a, sizeof list_a, lo, 5, hi, 5, bytes_b, sizeof bytes_b);
    expect("plan B", bare(a, 0) && a.length == B.count);
    /* (0, 6, high, 2, 4), (2, 16, high, 3, 6) and (0, 16, low, 5, 5), the first before the second */
    static const uint8_t list_c[40] = {
        0x03, 0x00, 0x01, 0x00, 0x10, 0x00, 0x00, 0x00,
        0x00, 0x00, 0x06, 0x00, 0x02, 0x00, 0x04, 0x00, 0x01, 0x00,
        0x02, 0x00, 0x10, 0x00, 0x03, 0x00, 0x06, 0x00, 0x01, 0x00,
        0x00, 0x00, 0x10, 0x00, 0x05, 0x00, 0x05, 0x00, 0x00, 0x00,
        0x00, 0x01,
    };
    a = hut_build(list_c, sizeof list_c, bytes_c, sizeof bytes_c);
    expect("plan C", bare(a, 0) && a.length == C.count);
}

/* A device that keeps each byte as it is written. Power lasts for so many more writes. */
struct device {
    uint8_t bytes[STORE_BYTES];
    size_t power;
};

static void put(struct device *d, size_t place, size_t byte)
{
    if (d->power > 0) {
        d->power--;
        d->bytes[place] = (uint8_t)byte;
    }
}

/* The writes of an append to it, from write k on: 0 for all of them. */
static struct hut_log_answer append_from(struct device *d, struct plan p, size_t k)
{
    const struct hut_log_answer room = hut_log_room(d->bytes, STORE_BYTES, p.bytes, p.count);
    if (room.answer.number != 0) {
        return room;
    }
    for (; k < HUT_LOG_WRITES(STORE_BYTES, room.at, p.count); k++) {
        const struct hut_log_byte w = hut_log_write(STORE_BYTES, room.at, p.bytes, p.count, k);
        put(d, w.place, w.byte);
    }
    return room;
}

static struct hut_log_answer append_on(struct device *d, struct plan p)
{
    return append_from(d, p, 0);
}

/* The other way, for plain memory: one call. */
static struct hut_log_answer append(struct device *d, struct plan p)
{
    return hut_log_append(d->bytes, STORE_BYTES, p.bytes, p.count);
}

static struct hut_log_answer room(const struct device *d, struct plan p)
{
    return hut_log_room(d->bytes, STORE_BYTES, p.bytes, p.count);
}

static struct hut_log_answer newest(const struct device *d)
{
    return hut_log_newest(d->bytes, STORE_BYTES);
}

static struct hut_log_answer previous(const struct device *d, size_t end)
{
    return hut_log_previous(d->bytes, STORE_BYTES, end);
}

static int alike(struct hut_log_answer one, struct hut_log_answer other)
{
    return memcmp(&one, &other, sizeof one) == 0;
}

static int same_store(const struct device *one, const struct device *other)
{
    return memcmp(one->bytes, other->bytes, STORE_BYTES) == 0;
}

/* A plan that stands there; a refusal, which has no plan. */
static int stands(struct hut_log_answer a, size_t at, struct plan p)
{
    return bare(a.answer, 0) && a.answer.order == NO && a.answer.length == NO && a.at == at && a.bytes == p.count;
}

static int refused(struct hut_log_answer a, size_t number)
{
    return bare(a.answer, number) && a.answer.order == NO && a.answer.length == NO && a.at == NO && a.bytes == NO;
}

static int has_bytes(const struct device *d, size_t at, struct plan p)
{
    return memcmp(d->bytes + at, p.bytes, p.count) == 0;
}

/* Finding. A log with nothing in it, one with three plans, and where one does not fit any more. */
static void finding(void)
{
    struct device d;
    memset(&d, 0xFF, sizeof d);
    expect("a store of 255s is an empty log: its newest is 51", refused(newest(&d), 51));
    expect("nothing ends at its front", refused(previous(&d, 0), 51));
    expect("nor at its end or past it", refused(previous(&d, STORE_BYTES), 51) && refused(previous(&d, STORE_BYTES + 1), 51));
    expect("a store of no bytes is empty too", refused(hut_log_newest(d.bytes, 0), 51) && refused(hut_log_previous(d.bytes, 0, 0), 51));
    expect("and has no room: 50", refused(hut_log_append(d.bytes, 0, A.bytes, A.count), 50));

    expect("A goes to the front", stands(room(&d, A), 0, A) && stands(append(&d, A), 0, A));
    expect("its bytes, then zeros", has_bytes(&d, 0, A) && all(d.bytes, 46, STORE_BYTES, 0));
    expect("it is the newest", stands(newest(&d), 0, A));
    memset(d.bytes + 46, 0xAA, STORE_BYTES - 46);
    expect("C goes behind it", stands(append(&d, C), 46, C));
    expect("zeros are behind C", has_bytes(&d, 46, C) && all(d.bytes, 126, STORE_BYTES, 0));
    expect("B goes behind C", stands(append(&d, B), 126, B) && has_bytes(&d, 126, B));
    expect("A and C are as they were", has_bytes(&d, 0, A) && has_bytes(&d, 46, C));
    expect("the newest is B", stands(newest(&d), 126, B));
    expect("listed newest first: B", stands(previous(&d, 172), 126, B));
    expect("then C, then A", stands(previous(&d, 126), 46, C) && stands(previous(&d, 46), 0, A));
    expect("and no more", refused(previous(&d, 0), 51));
    expect("no plan ends a byte beside", refused(previous(&d, 125), 51) && refused(previous(&d, 127), 51));
    expect("a plan in the store has room, too: the call only reads", stands(hut_log_room(d.bytes, STORE_BYTES, d.bytes + 126, 46), 172, B));

    /* A plan damaged in the middle ends the walk there, and the next append clears it. */
    struct device damaged = d;
    damaged.bytes[46 + 20] ^= 1;
    expect("C damaged: A is the newest", stands(newest(&damaged), 0, A));
    expect("C's trailer leads to its start as before, but to no plan", refused(previous(&damaged, 126), 51));
    expect("zeros lead eight bytes back, to no plan", refused(previous(&d, STORE_BYTES), 51));
    expect("and the next append takes its place", stands(append(&damaged, B), 46, B) && has_bytes(&damaged, 46, B));
    expect("and clears what followed it", all(damaged.bytes, 92, STORE_BYTES, 0));

    /* What was found is opened where it stands. */
    const struct hut_log_answer found = newest(&d);
    struct hut_running o = hut_open(d.bytes + found.at, found.bytes, 7);
    expect("the newest opens", bare(o.answer, 0));
    expect("and its first order is B's", orders(hut_step(&o.state, 7, 0), 0));
}

/* Refusals, in their order; none of them changes a byte. */
static void refusing(void)
{
    static uint8_t large[HUT_MOST_STORE_BYTES + 1];
    uint8_t bytes[46];
    const struct plan bad = {bytes, sizeof bytes};
    memcpy(bytes, plan_a, sizeof bytes);
    bytes[31] = 7; /* table LO, slot 3 */

    struct device d;
    memset(&d, 0x55, sizeof d);
    append(&d, A);
    append(&d, C);
    append(&d, B);
    append(&d, A);
    d.bytes[STORE_BYTES - 1] = 0x55;
    const struct device full = d;
    expect("38 bytes are left: B does not fit, 50", refused(room(&d, B), 50) && refused(append(&d, B), 50));
    expect("50 changes no byte", same_store(&d, &full));
    struct hut_log_answer a = append(&d, bad);
    expect("a damaged plan gets the reader's answer and place, full or not", is(a.answer, 45, NO, 3, NO, NO, NO, NO));
    expect("and has no place in the store", a.at == NO && a.bytes == NO);
    expect("when it is asked for room, too", alike(a, room(&d, bad)));
    expect("so does one without its last byte", refused(hut_log_append(d.bytes, STORE_BYTES, A.bytes, 45), 41));
    expect("they change no byte", same_store(&d, &full));

    memset(large, 0x55, sizeof large);
    expect("a store of 65,537 bytes is 52, before the reader's answer", refused(hut_log_append(large, sizeof large, bytes, 46), 52));
    expect("when it is asked for room, too", refused(hut_log_room(large, sizeof large, bytes, 46), 52));
    expect("for the newest", refused(hut_log_newest(large, sizeof large), 52));
    expect("and for the one before", refused(hut_log_previous(large, sizeof large, 0), 52));
    expect("52 changes no byte", all(large, 0, sizeof large, 0x55));
    expect("one of 65,536 takes a plan", stands(hut_log_append(large, HUT_MOST_STORE_BYTES, A.bytes, A.count), 0, A));
    expect("to its last byte", memcmp(large, plan_a, 46) == 0 && all(large, 46, HUT_MOST_STORE_BYTES, 0));
    expect("and no byte past it", large[HUT_MOST_STORE_BYTES] == 0x55);
}

/* The place of a write of an append that puts C there. */
static size_t place_of(size_t at, size_t k)
{
    return hut_log_write(STORE_BYTES, at, C.bytes, C.count, k).place;
}

/* The writes: zeros from the store's last byte back, then the plan forwards, and no more. */
static void writing(void)
{
    const size_t at = 46, zeros = STORE_BYTES - at;
    int good = 1;
    for (size_t k = 0; k < zeros; k++) {
        const struct hut_log_byte w = hut_log_write(STORE_BYTES, at, C.bytes, C.count, k);
        good = good && w.place == STORE_BYTES - 1 - k && w.byte == 0;
    }
    expect("zeros, from the last byte back to the plan's first", good);
    good = 1;
    for (size_t i = 0; i < C.count; i++) {
        const struct hut_log_byte w = hut_log_write(STORE_BYTES, at, C.bytes, C.count, zeros + i);
        good = good && w.place == at + i && w.byte == C.bytes[i];
    }
    expect("the plan, forwards", good);
    expect("as many as HUT_LOG_WRITES says", HUT_LOG_WRITES(STORE_BYTES, at, C.count) == zeros + C.count);
    expect("behind the last there is none", place_of(at, zeros + C.count) == STORE_BYTES && place_of(at, SIZE_MAX) == STORE_BYTES);
    expect("where C just fits there are some", place_of(STORE_BYTES - 80, 0) == STORE_BYTES - 1);
    expect("where it does not fit there is none", place_of(STORE_BYTES - 79, 0) == STORE_BYTES && place_of(SIZE_MAX, 0) == STORE_BYTES);
}

/* The plans of a log, newest first: from the newest one's end, and then from each start. */
struct listed {
    size_t count;
    struct hut_log_answer plan[MOST_PLANS];
};

static struct listed list(const struct device *d)
{
    struct listed l;
    memset(&l, 0, sizeof l);
    struct hut_log_answer a = newest(d);
    if (a.answer.number == 0) {
        a = previous(d, a.at + a.bytes);
    }
    while (a.answer.number == 0 && l.count < MOST_PLANS) {
        l.plan[l.count++] = a;
        a = previous(d, a.at);
    }
    return l;
}

/* Whether a store lists so many plans more than it had, newest first, and then those that it had, each with its bytes. */
static int lists(const struct device *d, const struct device *had, const struct listed *old, size_t more)
{
    const struct listed l = list(d);
    int good = l.count == old->count + more;
    for (size_t i = 0; i < old->count; i++) {
        const struct hut_log_answer a = old->plan[i];
        good = good && alike(l.plan[i + more], a) && memcmp(d->bytes + a.at, had->bytes + a.at, a.bytes) == 0;
    }
    return good;
}

/* Whether an append answers, and leaves the store, as it would have done where there was no cut. */
static int as_uncut(const struct device *cut, const struct device *uncut, struct plan p)
{
    struct device one = *cut, other = *uncut;
    const struct hut_log_answer said = room(cut, p);
    return said.answer.number == 0 && alike(said, room(uncut, p)) && alike(append(&one, p), said)
        && alike(append(&other, p), said) && same_store(&one, &other);
}

/* Power lost after each number of an append's writes, and after the last. */
static void cutting(const char *which, const struct device *before, struct plan p, struct plan next)
{
    const struct listed old = list(before);
    const struct hut_log_answer was = newest(before);
    struct device whole = *before;
    const struct hut_log_answer appended = append(&whole, p);
    const size_t writes = HUT_LOG_WRITES(STORE_BYTES, appended.at, p.count);
    int answers = 1, keeps = 1, finds_old = 1, goes_on = 1;
    for (size_t k = 0; k < writes; k++) {
        struct device d = *before;
        d.power = k;
        answers = answers && alike(append_on(&d, p), appended) && d.power == 0;
        keeps = keeps && memcmp(d.bytes, before->bytes, appended.at) == 0 && lists(&d, before, &old, 0);
        finds_old = finds_old && alike(newest(&d), was);
        goes_on = goes_on && as_uncut(&d, before, p) && as_uncut(&d, before, next);
    }
    printf("%s: power lost after 0 to %d writes\n", which, (int)writes);
    expect("the append answers the same, whenever power is lost", bare(appended.answer, 0) && answers);
    expect("every earlier plan is as it was, byte for byte, and listed", keeps);
    expect("before the last write the newest is the old one", finds_old);
    expect("the next append does what it would have done", goes_on);

    struct device d = *before;
    d.power = writes;
    append_on(&d, p);
    expect("the last write is the last", d.power == 0);
    expect("after it the newest is the new one, with all its bytes", stands(newest(&d), appended.at, p) && has_bytes(&d, appended.at, p));
    expect("and every earlier plan is as it was", lists(&d, before, &old, 1));
    expect("the store is the one that hut_log_append leaves", same_store(&d, &whole));
}

static void cutting_each(void)
{
    struct device d;
    memset(&d, 0xFF, sizeof d);
    cutting("A into an empty log", &d, A, C);

    /* Behind A lies B without its first byte, as a log before this one may have left it. */
    append(&d, A);
    memset(d.bytes + 46, 0xAA, STORE_BYTES - 46);
    memcpy(d.bytes + 46, B.bytes, B.count);
    d.bytes[46] = 0;
    struct device unzeroed = d;
    cutting("C behind A", &d, C, A);

    /* Were the zeros left out, one byte of a plan would bring B back. */
    unzeroed.power = 1;
    append_from(&unzeroed, A, STORE_BYTES - 46);
    expect("without the zeros B comes back", stands(newest(&unzeroed), 46, B));

    append(&d, C);
    d.bytes[STORE_BYTES - 1] = 0x31;
    cutting("B behind A and C", &d, B, C);
}

int main(void)
{
    make_plans();
    finding();
    refusing();
    writing();
    cutting_each();
    return counted();
}

/* The slot desk for firmware: build, check, why, read, write, open and step, over bytes that the caller lends
 * and one state that the caller keeps; and a log of plans in one store, which a cut of power does not harm.
 *
 * Link libhut.a: `rt lib` in crates/hut writes it for x86-64, `tools/hut-for` for 64-bit Arm and RISC-V as well.
 * Every promise below is the contract of a proved function: crates/hut/src/lib.rt has it, and
 * crates/hut/specs/Calls.antt and Log.antt say what each answer is. What a cut leaves of an append is a theorem
 * over these contracts: crates/planlog/specs/Cut.antt. What is not proved is the compiler's back end, and
 * that the caller keeps to "What the caller owes".
 *
 * No call allocates, keeps anything between calls, reads a clock or writes a file. Each call ends, and
 * answers on every input: any bytes, any lengths, any ticks, any end marks, any bytes as a state. Of C's
 * library it needs memcpy and memset.
 *
 * What the caller owes:
 * - a pointer is never NULL, also where its length is 0, and that many bytes behind it may be read;
 * - the bytes of `out`, of `needs` and of the store that hut_log_append is given may be written, and none of
 *   them is also lent as another argument of that call: a plan to append does not lie in the store;
 * - the state that hut_step is given may be read and written, all HUT_STATE_BYTES of it, and stands at an
 *   address that is a multiple of 2, as a struct hut_state does;
 * - nobody else reads or writes lent bytes, or the state, while the call runs.
 */
#ifndef HUT_H
#define HUT_H

#include <stddef.h>
#include <stdint.h>

#ifdef __cplusplus
extern "C" {
#endif

/* What an answer has not got. As `switched` it is the paper's own mark: no switch was made. */
#define HUT_ABSENT 65535

/* No job: in a table, and as an order. */
#define HUT_IDLE 255

/* The most jobs of a list. */
#define HUT_MOST_JOBS 64

/* The bytes of a list of n jobs and m edges, and the bytes of the longest plan. */
#define HUT_LIST_BYTES(n, m) (8 + 10 * (size_t)(n) + 2 * (size_t)(m))
#define HUT_MOST_PLAN_BYTES 3216

/* The most bytes of a log's store. */
#define HUT_MOST_STORE_BYTES 65536

/* How many bytes an append writes that puts a plan at `at`: each byte from there to the store's end, and the plan's. */
#define HUT_LOG_WRITES(store_bytes, at, plan_bytes) ((size_t)(store_bytes) - (size_t)(at) + (size_t)(plan_bytes))

/* The stack to leave for each call. Not proved: tests/hut/stack.c measures each call on a list of the most jobs and
 * slots, on each processor, less what a thread takes that does nothing. A step's does not grow with the sizes. */
#define HUT_STACK_BUILD 24576
#define HUT_STACK_CHECK 12288
#define HUT_STACK_WHY 12288
#define HUT_STACK_READ 12288
#define HUT_STACK_WRITE 12288
#define HUT_STACK_OPEN 20480
#define HUT_STACK_STEP 512
#define HUT_STACK_LOG_APPEND 12288
#define HUT_STACK_LOG_NEWEST 12288
#define HUT_STACK_LOG_PREVIOUS 12288
#define HUT_STACK_LOG_ROOM 12288
#define HUT_STACK_LOG_WRITE 512

/* Where an answer of no stands. Each field is HUT_ABSENT where the number below does not name it. */
struct hut_place {
    size_t fault;    /* for 24: the check's number, 10 to 12 */
    size_t slot;
    size_t job;
    size_t pred;     /* the predecessor that was not finished */
    size_t switched; /* the slot of the switch after which it goes wrong */
    size_t edge;
};

/* A number, 0 for yes, and its place.
 *
 *  no.  meaning                                                  place
 *   0   yes
 *   1   the job count is not 1 to 64
 *   2   more than 256 edges
 *   3   the frame length is not 1 to 1024, or not the largest deadline
 *   4   arrival and deadline: not a < d <= 1024                  job
 *   5   budgets: not 1 <= CLO <= CHI <= 1024, or CLO and CHI of
 *       a low job differ                                         job
 *   6   a level over 1                                           job
 *   7   an edge names no job or itself, or is out of order       edge
 *   8   an edge from a low job to a high one                     edge
 *   9   the edges form a cycle
 *  10   late: a deadline is missed                               slot, job, switched
 *  11   too early: a job is named before it arrives              slot, job, switched
 *  12   a job is named before its predecessor has finished       slot, job, pred, switched
 *  20   the late table of the low jobs: a job with its deadline
 *       at the slot is unfinished there                          slot, job
 *  21   the same of the high jobs                                slot, job
 *  22   both late tables hold a job at the slot                  slot
 *  23   the late table's low job there has a predecessor that
 *       has not all its CLO units in table LO yet                slot
 *  24   the built pair fails the check                           fault, and that fault's place
 *  30   the same tick again
 *  31   ticks were lost: the state is halted
 *  32   the state is halted: open it again
 *  33   a stale tick
 *  34   an end was signalled with no job ordered
 *  35   a high job is past CHI: the state is halted              job
 *  36   a tick half the counter away: the state is halted
 *  37   these bytes are no state
 *  40   too short: a list under 8 bytes, a plan under 16
 *  41   the mark at the plan's end is wrong
 *  42   the distance in the plan's trailer is wrong
 *  43   the length is not what the counts give
 *  44   a zero field is not zero
 *  45   a table byte is neither 255 nor a job                    slot
 *  46   the output is shorter than the plan
 *  50   the plan does not fit behind the log's last whole plan
 *  51   no plan: the log is empty, or none ends at the place asked for
 *  52   a store of more than 65,536 bytes
 *
 * 20 to 24 say how far the merge method came. A builder's no is not a claim that no pair exists.
 */
struct hut_answer {
    size_t number;
    struct hut_place place;
    size_t order;  /* hut_step, on yes: the job to run, or HUT_IDLE; else HUT_ABSENT */
    size_t length; /* hut_build and hut_write, on yes: the plan's bytes; else HUT_ABSENT */
};

/* What hut_read answers: on yes the counts, else HUT_ABSENT in each. */
struct hut_read_result {
    struct hut_answer answer;
    size_t jobs;
    size_t edges;
    size_t slots;
};

/* The dispatcher's state. It is opaque: nothing in it is for the caller to read or set. It has this many
 * bytes, holds no pointer, and may be copied, kept and put back as bytes. */
#define HUT_STATE_BYTES 3470
struct hut_state {
    uint16_t opaque[HUT_STATE_BYTES / 2];
};

/* What hut_open answers, and the state to keep. The last field is 0, so that every byte of it is settled. */
struct hut_running {
    struct hut_answer answer;
    struct hut_state state;
    uint16_t rest;
};

/* Makes the two tables of a list by the merge method, and puts the plan at the front of `out`.
 * 0, with the plan's length; or a list's number, 46, or 20 to 24. On 0 the bytes of `out` past the plan
 * are as they were; on any other number no byte of `out` has changed. */
struct hut_answer hut_build(const uint8_t *list, size_t list_bytes, uint8_t *out, size_t out_bytes);

/* Whether a list and two tables are safe, whoever drew the tables: 0 exactly when every execution is good.
 * Else a list's number, 43, 45, or 10 to 12 with the place where a real execution goes wrong. */
struct hut_answer hut_check(const uint8_t *list, size_t list_bytes, const uint8_t *lo, size_t lo_bytes,
                            const uint8_t *hi, size_t hi_bytes);

/* The check, and the night on which it goes wrong. The answer is hut_check's. Where its number is 10, 11 or 12,
 * needs[j] is how many units job j needs in a real execution that is bad as the answer says: at its slot, with
 * its job and predecessor, after its switch. Of the entries from the job count on, and of all of them where the
 * answer is any other, each is 0. So every one of the HUT_MOST_JOBS entries is written, whatever it was. */
struct hut_answer hut_why(const uint8_t *list, size_t list_bytes, const uint8_t *lo, size_t lo_bytes,
                          const uint8_t *hi, size_t hi_bytes, uint16_t needs[HUT_MOST_JOBS]);

/* What the bytes are: 0 for a plan that passes the check, with its counts; or the first number in the order
 * 40 to 42, the list's, 45, 10 to 12. On 0 the plan has the list first, HUT_LIST_BYTES(jobs, edges) bytes,
 * then table LO and table HI, `slots` bytes each. */
struct hut_read_result hut_read(const uint8_t *plan, size_t plan_bytes);

/* Puts the plan of a list and two tables at the front of `out`: 0, with the plan's length, where the check
 * says yes and there is room; else the check's answer, or 46. `out` is left as hut_build leaves it. What was
 * written is read again to the last byte, and what was read is written again as the same bytes. */
struct hut_answer hut_write(const uint8_t *list, size_t list_bytes, const uint8_t *lo, size_t lo_bytes,
                            const uint8_t *hi, size_t hi_bytes, uint8_t *out, size_t out_bytes);

/* A state for a plan, to be stepped first with the tick `first`. The number is hut_read's. On any number but
 * 0 the state is all zero, and a step on it says 37. The plan's bytes are not needed afterwards. */
struct hut_running hut_open(const uint8_t *plan, size_t plan_bytes, uint16_t first);

/* One tick. `ended` says whether the job ordered last signalled its end: 0 is no, any other byte yes.
 * 0, with the order for the slot that begins; or 37, 32, 30, 36, 33, 31, 34, 35, the first of them that holds.
 * Ticks count modulo 65536, so tick 0 follows tick 65535. The tick 1 after the last one taken is the next; 0 after it
 * is 30, 2 to 32,767 are 31, 32,768 is 36, and 32,769 to 65,535 are 33. No refusal takes the end that came with it.
 * 31, 35 and 36 halt the state and change nothing else in it; the other refusals change nothing at all. */
struct hut_answer hut_step(struct hut_state *state, uint16_t tick, uint8_t ended);

/* The log: plans back to back in one store, the oldest at its first byte. It ends where no plan begins that hut_read
 * accepts, with as many bytes as its own counts give. What lies behind that end does not matter, so any bytes are a
 * log: a store of zeros, or of a new device's 255s, is an empty one.
 *
 * Every call that is given a store says 52 first of all where that is too large, and a refusal never changes a byte.
 * On 0 `at` is where the plan begins in the store, and `bytes` its size; on any other number both are HUT_ABSENT. */
struct hut_log_answer {
    struct hut_answer answer;
    size_t at;
    size_t bytes;
};

/* A byte to write, and its place in the store. */
struct hut_log_byte {
    size_t place;
    size_t byte;
};

/* Appends a plan right behind the last whole one. 0; or the first that holds of 52, hut_read's number and place for
 * the plan, and 50. On 0 every byte before `at` is as it was, the plan follows, and every byte behind it is 0.
 * It reads each plan of the log once, and the new one once.
 *
 * What it leaves is proved. In what order the bytes get there is proved of the source alone: the store is plain memory
 * here, where the compiler may take another order (a memset goes forwards), and caches another again. So this call is
 * for a store that is lost or kept as a whole when power is: one in RAM, or a copy that goes into its device in one
 * piece. For one that keeps each byte as it is written, ask hut_log_room and make the writes with hut_log_write. */
struct hut_log_answer hut_log_append(uint8_t *store, size_t store_bytes, const uint8_t *plan, size_t plan_bytes);

/* What hut_log_append would answer, place for place. It only reads; the plan may lie in the store. */
struct hut_log_answer hut_log_room(const uint8_t *store, size_t store_bytes, const uint8_t *plan, size_t plan_bytes);

/* Write k of the append for which hut_log_room gave `at`: `byte` goes to `place`, whatever stands there. They are
 * HUT_LOG_WRITES(store_bytes, at, plan_bytes), from k = 0 on: zeros from the store's last byte back to `at`, then the
 * plan forwards. Past the last, and where a plan of these bytes does not fit at `at`, `place` is store_bytes: no write.
 *
 * For FRAM, EEPROM, or flash whose driver can put any byte over any other. Make the writes in this order, each
 * in the device before the next begins. Then power may be lost after any of them:
 * - before the last one, every byte before `at` is as it was; hut_log_newest and the list that hut_log_previous makes
 *   are as they were, and so is hut_log_room's answer to any plan; and whatever is appended then, the store is the
 *   one that it would be without the cut;
 * - from the last one on, the new plan is the newest, all its bytes are present, and the store is the one that
 *   hut_log_append leaves.
 * A byte that power leaves half written is the device's to rule out. The plan does not lie in the store from `at`
 * on: the zeros would go over it. */
struct hut_log_byte hut_log_write(size_t store_bytes, size_t at, const uint8_t *plan, size_t plan_bytes, size_t k);

/* The newest whole plan of the log: 0, or 52, or 51 where the log is empty. It reads each plan of the log once. */
struct hut_log_answer hut_log_newest(const uint8_t *store, size_t store_bytes);

/* The plan that ends right before `end`: the distance in its trailer leads back to its start, and hut_read accepts
 * it. 0, or 52, or 51 where there is none. Asked at the newest plan's end, at + bytes, and then at each `at` that it
 * gives, it lists the log's plans newest first, and 51 says that there are no more. It reads one plan. */
struct hut_log_answer hut_log_previous(const uint8_t *store, size_t store_bytes, size_t end);

#ifdef __cplusplus
}
#endif

#endif

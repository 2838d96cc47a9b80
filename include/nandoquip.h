/* Nandoquip for C: which program runs next on a processor that several programs share.
 *
 * Link libnandoquip.a: `rt lib` in crates/nandoquip_c proves and builds it, as out/libnandoquip_c.a.
 *
 * Every function takes every value and comes to an end. What it can't use it refuses by a number:
 *
 *   no.  when                                             second number
 *   1    the partition count or a field is out of range   the first bad index; 0 for none, 16 for more than 16
 *   2    the table is not admitted                        the first failing partition
 *   3    the state is out of range                        the first bad pair
 *   4    a decision without a word                        0
 *   5    a tick for a pick that is not in the list        that pick
 *   6    a release of an index that is not active         that index
 *   7    the buffer is too short                          the length needed
 *   9    the task count or a field is out of range        the first bad task; 64 for more than 64
 *
 * (8 is for meter files, which the two printers read.) After a refusal nothing that was lent has changed, and
 * all values behind the refusal's two numbers are 0, unless it is said otherwise.
 *
 * Memory. The library keeps nothing, allocates nothing, and has no state of its own: structs go in and come back
 * by value, and what a pointer names is lent for the one call and stays the caller's. A pointer must not be null,
 * also where its count is 0, must have as many elements behind it as its count says, and what is written to (a
 * state, the picks) must overlap nothing else that is lent to the same call.
 */
#ifndef NANDOQUIP_H
#define NANDOQUIP_H

#include <stddef.h>
#include <stdint.h>

#ifdef __cplusplus
extern "C" {
#endif

/* Idle as a pick. */
#define NANDOQUIP_IDLE 255

/* A partition. Times are in ticks: period 1 to 4,096, budget 1 to the period, phase 0 to the period less 1. */
struct nandoquip_part {
    uint16_t period;
    uint16_t budget;
    uint16_t phase;
};

/* A partition table: 1 to 16 partitions, index 0 having the highest rank. Entries from `count` on don't count. */
struct nandoquip_table {
    uint16_t period[16];
    uint16_t budget[16];
    uint16_t phase[16];
    size_t count;
};

/* A task table: at most 64. Each task names a partition, its shortest gap (1 to 65,535) and its cost (1 to the
 * gap). Tasks of one partition rank in table order. Entries from `count` on don't count. */
struct nandoquip_tasks {
    size_t count;
    uint16_t partition[64];
    uint16_t gap[64];
    uint16_t cost[64];
};

/* A state: for each partition what is left of its budget (0 to the budget) and the ticks until it comes again
 * (1 to the period). Pairs beyond the table are 0, 0. */
struct nandoquip_state {
    uint16_t b[16];
    uint16_t o[16];
};

/* Why a call was refused: a number of the table above, and its second number. 0, 0: it was not refused. */
struct nandoquip_refusal {
    uint32_t number;
    size_t second;
};

/* A pick: a partition's index, or NANDOQUIP_IDLE. */
struct nandoquip_picked {
    struct nandoquip_refusal refusal;
    uint32_t pick;
};

/* A test of all partitions. `passes` is 1 and `failing` 0 where all pass; else `passes` is 0 and `failing` is
 * the first that fails. */
struct nandoquip_tested {
    struct nandoquip_refusal refusal;
    uint32_t passes;
    size_t failing;
};

/* A length of time. `within` is 1 and `ticks` the length where it is within its deadline; else both are 0. */
struct nandoquip_length {
    struct nandoquip_refusal refusal;
    uint32_t within;
    uint64_t ticks;
};

/* The response time of a task, 0 for late. A true response is never 0. */
struct nandoquip_response {
    struct nandoquip_refusal refusal;
    uint64_t ticks;
};

/* A state after a call. After a refusal it is the state that was given. */
struct nandoquip_after {
    struct nandoquip_refusal refusal;
    struct nandoquip_state state;
};

/* The candidates by rank, then idle: the first `length` of `list`. Unused places are 0. */
struct nandoquip_listed {
    struct nandoquip_refusal refusal;
    size_t length;
    uint8_t list[17];
};

/* The candidates, and what each weighs. Unused places are 0. */
struct nandoquip_weighed {
    struct nandoquip_refusal refusal;
    size_t length;
    uint8_t list[17];
    uint32_t weights[17];
};

/* ---- the hook: the kernel's one state, updated where it stands, and its table, a run of records in its memory.
 * A run of more than 16 records is refused by 1 at 16. */

/* One decision by the word, and its tick: draws among the candidates, gives the tick to the pick, and moves the
 * state on. Refusals 1 and 3; after them the state is as before. */
struct nandoquip_picked nandoquip_tick(struct nandoquip_state *state, const struct nandoquip_part *parts,
                                       size_t count, uint32_t word);

/* The tick for a pick that was made elsewhere; it must be in the list. Refusals 1, 3 and 5; after them the
 * state is as before. */
struct nandoquip_refusal nandoquip_tick_for(struct nandoquip_state *state, const struct nandoquip_part *parts,
                                            size_t count, size_t pick);

/* A partition gives up what is left of its budget. Refusals 1, 3 and 6; after them the state is as before. */
struct nandoquip_refusal nandoquip_release(struct nandoquip_state *state, const struct nandoquip_part *parts,
                                           size_t count, size_t index);

/* The records as a table for the calls below: their count, and the first 16. Nothing is refused: a call that is
 * given too many, or one out of range, refuses them. */
struct nandoquip_table nandoquip_table_of(const struct nandoquip_part *parts, size_t count);

/* ---- by value */

/* The fresh start of a table: a full budget where the phase is 0, else none until the phase is over. `state` is
 * what comes back on a refusal, and nothing else. Refusals 1 and 2. */
struct nandoquip_after nandoquip_fresh(struct nandoquip_state state, struct nandoquip_table table);

/* Admission: whether every partition's budget can be served within its period, by ranks. Refusal 1. */
struct nandoquip_tested nandoquip_admission(struct nandoquip_table table);

/* The longest that one partition's budget takes, by ranks; its deadline is its period. Refusal 1, also with the
 * index of a partition that isn't there. */
struct nandoquip_length nandoquip_partition_response(struct nandoquip_table table, size_t partition);

/* The standing test: whether every partition passes from this state, with no inversion. Refusals 1 and 3. */
struct nandoquip_tested nandoquip_standing(struct nandoquip_table table, struct nandoquip_state state);

/* The busy length of one partition with an inversion, within its deadline. Refusals 1, also with the index of a
 * partition that isn't there, and 3. */
struct nandoquip_length nandoquip_busy_length(struct nandoquip_table table, struct nandoquip_state state,
                                              size_t partition, uint32_t inversion);

/* The candidates. Over an admitted table, from a state that stands, none of them makes anyone miss a budget.
 * Refusals 1 and 3. */
struct nandoquip_listed nandoquip_candidates(struct nandoquip_table table, struct nandoquip_state state);

/* The candidates and their weights. Refusals 1 and 3. */
struct nandoquip_weighed nandoquip_weights(struct nandoquip_table table, struct nandoquip_state state);

/* One decision by the first of the lent words, and no tick. Refusals 1, 3 and 4. */
struct nandoquip_picked nandoquip_decide(struct nandoquip_table table, struct nandoquip_state state,
                                         const uint32_t *words, size_t count);

/* One decision and tick for each lent word. The picks go to `picks`, a byte each, which has room for `room`;
 * bytes past the last pick stay as they are. Refusals 1, 3 and 7; after them no byte has changed. */
struct nandoquip_after nandoquip_run(struct nandoquip_state state, struct nandoquip_table table,
                                     const uint32_t *words, size_t count, uint8_t *picks, size_t room);

/* The longest response time of one task, from its own partition's numbers and the tasks ranked above it there.
 * Refusals 1 and 9, also with the index of a task that isn't there. */
struct nandoquip_response nandoquip_task_response(struct nandoquip_table table, struct nandoquip_tasks tasks,
                                                  size_t task);

#ifdef __cplusplus
}
#endif

#endif

/* The depot planner, for controllers. Link with target/staticlib/libdepot.a, a copy of crates/depot_c/out/libdepot_c.a (`rt lib` there, x86-64).
 *
 * Every call returns, whatever the bytes, numbers and buffers are. A buffer is a pointer and a count of elements; the pointer is never null and never
 * dangling, also where the count is 0, buffers that are written do not overlap any other buffer, and 64-bit buffers are aligned to 8 bytes. Nothing is
 * kept between calls, nothing is allocated; 1.5 MiB of stack was enough for every task tried (the example ran in 1,168 KiB).
 *
 * Refusals of a record: 1 it ends inside a field; 2 a size of 1; 3 a factor above the number of leaves; 4 an initial value outside its size; 5 a pair's
 * variable unknown or not above the one before; 6 a pair's value outside its size; 7 no effects; 8 fill bits not zero, or bytes left over; 9 the centre
 * or a leaf without variables; 10 too many leaf states; 11 an action that is neither centre nor leaf action.
 * Of a path: 12 longer than 4,095, or an entry not a centre action; 13 an entry that does not apply.
 * Of a call: 20 nodes 0 or above 4,096; 21 table or price buffer too short; 22 table full; 23 budget spent; 24 plan longer than its buffer.
 */
#ifndef DEPOT_H
#define DEPOT_H

#include <stddef.h>
#include <stdint.h>

#define DEPOT_PLAN 0u
#define DEPOT_UNSOLVABLE 255u

/* The price of a leaf state that cannot be reached. */
#define DEPOT_UNREACHABLE UINT64_MAX

/* Plans the task in `record` at the least cost.
 *
 * nodes: how many nodes the search may keep, 1 to 4,096; budget: how many expansions it may begin.
 * Returns DEPOT_PLAN, DEPOT_UNSOLVABLE, or the number of the refusal (1 to 11, 20, 21, then 22 or 23 as met, then 24).
 * plan: the plan's actions, one byte each, from its front; the bytes behind it, and all bytes without a plan, are as they were. depot_plan_bytes(record, nodes)
 * bytes are enough for every plan.
 * table: working memory, depot_table_words(record, nodes) words at least. As it was before a search; after one those words are 0 and the rest as it was.
 * answer: where it has four words or more, the first four are the plan's length, its cost in hundredths of a second, the expansions begun and the
 * nodes kept; 0 where there is none (length and cost without a plan, all four for 1 to 21). A shorter one is left as it was. */
uint32_t depot_plan(const uint8_t *record, size_t record_len, uint32_t nodes, uint32_t budget, uint8_t *plan, size_t plan_len, uint64_t *table,
                    size_t table_len, uint64_t *answer, size_t answer_len);

/* The prices of all leaf states after a path of centre actions, one byte each: leaf 1 first, DEPOT_UNREACHABLE where a state cannot be reached.
 *
 * Returns 0 with the prices at the front of `prices` and the words behind them as they were, or the number of the refusal (1 to 11, 12, 21, 13)
 * with all words as they were. */
uint32_t depot_prices(const uint8_t *record, size_t record_len, const uint8_t *path, size_t path_len, uint64_t *prices, size_t prices_len);

/* The words that a table for this record and so many nodes needs, (nodes + 1) x (40 + S); 0 where the record or the number of nodes is refused. A table of
 * that length is never refused 21, and a shorter one always is. */
uint64_t depot_table_words(const uint8_t *record, size_t record_len, uint32_t nodes);

/* How many bytes are enough for a plan, nodes x (S + 1); 0 where the record or the number of nodes is refused. With a buffer of that length or longer no
 * call with these nodes is answered 24. */
uint64_t depot_plan_bytes(const uint8_t *record, size_t record_len, uint32_t nodes);

#endif

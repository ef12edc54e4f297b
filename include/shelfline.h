/* The planner of task files, for controllers in C.
 *
 * Every call is safe for any bytes, numbers and buffers, as long as each pointer has that many elements behind it and the
 * buffers of one call do not overlap, which nothing checks. Every call answers 0, or the number of a refusal
 * (docs/REFUSALS.md), and tells its results through the lent slice `told`. Where `told` is too short for the call, it
 * answers 17 before it reads the file. Where a call is refused, `told` is written only as said below.
 *
 * A file that is refused answers 1 to 8 in every call but shelfline_listing, with told[0] = the byte place and told[1] = 0,
 * or the number of the action whose record has the fault plus 1. Nothing else is written then.
 */
#ifndef SHELFLINE_H
#define SHELFLINE_H

#include <stddef.h>
#include <stdint.h>

#ifdef __cplusplus
extern "C" {
#endif

/* Checks a file. told (2 numbers): atoms, actions. */
uint32_t shelfline_check(const uint8_t *file, size_t file_length, uint64_t *told, size_t told_length);

/* A bound from the file's start: way 0 is direct, 1 is compiled (any other answers 9); order is m, 1 or 2 (else 10).
 * told (2 numbers): 1 and the bound in tenths of a second, or 0 and 0 where it is none. */
uint32_t shelfline_bound(const uint8_t *file, size_t file_length, uint32_t way, uint32_t order, uint64_t *told,
                         size_t told_length);

/* A cheapest plan, written to the front of `plan`. Estimator 0 is blind, 1 direct, 2 compiled (any other answers 9); order
 * is m for the last two, 1 or 2 (else 10), and ignored by the first. The search table has `places` places, at most 4,096 of
 * which are used.
 * told (4 numbers): 1, the plan's length, its cost and the places used; or 0, 0, 0 and the places used, where there is no
 * plan. Refused by 16 where a place is wanting, with the places used in told[3] (and 0, 0, 0 before it); by 17 where the
 * plan is longer than `plan`, or `told` too short. */
uint32_t shelfline_search(const uint8_t *file, size_t file_length, uint32_t estimator, uint32_t order, uint32_t places,
                          uint16_t *plan, size_t plan_length, uint64_t *told, size_t told_length);

/* The listing (docs/LISTING.md) as text without a final NUL, also for a file that is refused, which answers 0 here.
 * told (1 number): the text's length. Refused by 17 where the text does not fit `text`, whose content is then of no use;
 * 10,000 bytes always suffice. */
uint32_t shelfline_listing(const uint8_t *file, size_t file_length, uint8_t *text, size_t text_length, uint64_t *told,
                           size_t told_length);

#ifdef __cplusplus
}
#endif

#endif

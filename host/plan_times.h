/* Response times of a plan, from the proved library.
 *
 * plan    plan bytes: records of 20 bytes, line 1 first (docs/FORMATS.md)
 * result  8 bytes for each line: its number and its response time, each 32 bits,
 *         least byte first; the time is 0 where the line does not pass
 *
 * Answers 0, also where a line does not pass. A refusal is its number x 1,000 +
 * the record that it names (docs/REFUSALS.md), and then nothing is written.
 * A plan has at most 20 lines, so 160 result bytes always suffice.
 *
 * The caller owes: both pointers are not null (also at length 0), valid for their
 * lengths, and the two areas do not overlap.
 */
#ifndef PLAN_TIMES_H
#define PLAN_TIMES_H

#include <stddef.h>
#include <stdint.h>

#ifdef __cplusplus
extern "C" {
#endif

uint32_t plan_times(const uint8_t *plan, size_t plan_len, uint8_t *result, size_t result_len);

#ifdef __cplusplus
}
#endif

#endif

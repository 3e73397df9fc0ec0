/* Turns of a run of a plan, by the proved library.
 *
 * plan     plan bytes: records of 20 bytes, line 1 first (docs/FORMATS.md)
 * ticks    how many turns: turn i offers `amount` to line i modulo the count of
 *          lines + 1 (line 0 is none), makes a tick and fetches a completion
 * places   how many requests may wait, 64 at most
 *
 * Answers a sum over all answers, 0 where the plan is refused or does not pass.
 * The caller owes: the pointer is not null (also at length 0) and valid for the length.
 */
#ifndef DRIVE_H
#define DRIVE_H

#include <stddef.h>
#include <stdint.h>

uint64_t drive(const uint8_t *plan, size_t plan_len, uint32_t ticks, uint32_t amount, uint32_t places);

#endif

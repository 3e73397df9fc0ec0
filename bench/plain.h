/* The rules of docs/RULES.md in plain C, to compare the library with. */
#ifndef PLAIN_H
#define PLAIN_H

#include <stddef.h>
#include <stdint.h>

uint32_t plain_plan_times(const uint8_t *plan, size_t plan_len, uint8_t *result, size_t result_len);
uint64_t plain_drive(const uint8_t *plan, size_t plan_len, uint32_t ticks, uint32_t amount, uint32_t places);

#endif

/* The calls of calls.c, with the parameters of include/snarevapor.h but for the lengths that are always enough. */
#ifndef PLAIN_CALLS_H
#define PLAIN_CALLS_H

#include <stddef.h>
#include <stdint.h>

uint32_t plain_open(uint8_t *tables, uint64_t count, const uint8_t *balances, const uint8_t *lines, uint8_t *answer);
uint32_t plain_deposit(uint8_t *tables, uint64_t member, uint64_t amount, uint8_t *answer);
uint32_t plain_submit(uint8_t *tables, uint64_t payer, uint64_t number, uint64_t payee, uint64_t amount);
uint32_t plain_release(uint8_t *tables, uint64_t member, uint8_t *answer);
uint32_t plain_group(uint8_t *tables, const uint8_t *counts, size_t counts_length, uint8_t *answer);
uint32_t plain_resolve(uint8_t *tables, uint8_t *counts, size_t counts_length, uint8_t *answer);

#endif

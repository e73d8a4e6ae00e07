/* Makes the example of docs/BYTES.md, and prints the bytes that crossed: a name, and its bytes in hexadecimal. */
#include "snarevapor.h"
#include <stdio.h>

static uint8_t tables[SNAREVAPOR_TABLES];

static void print_bytes(const char *name, const uint8_t *bytes, size_t length) {
    printf("%s ", name);
    for (size_t i = 0; i < length; i++) printf("%02x", (unsigned)bytes[i]);
    printf("\n");
}

int main(void) {
    uint8_t balances[2 * SNAREVAPOR_BALANCE_BYTES] = {0}, lines[2 * SNAREVAPOR_LINE_BYTES] = {0}, sum[SNAREVAPOR_OPEN_ANSWER];
    uint8_t counts[2 * SNAREVAPOR_COUNT_BYTES], told[SNAREVAPOR_RESOLVE_ANSWER];
    snarevapor_put(balances, SNAREVAPOR_BALANCE_BYTES, 10);
    if (snarevapor_open(tables, sizeof tables, 2, balances, sizeof balances, lines, sizeof lines, sum, sizeof sum)) return 1;
    if (snarevapor_submit(tables, sizeof tables, 1, 1, 2, 30) || snarevapor_submit(tables, sizeof tables, 2, 1, 1, 20)) return 1;
    if (snarevapor_submit(tables, sizeof tables, 1, 2, 2, 5)) return 1;
    print_bytes("balances", balances, sizeof balances);
    print_bytes("lines", lines, sizeof lines);
    print_bytes("sum", sum, sizeof sum);
    print_bytes("before", tables, sizeof tables);
    if (snarevapor_resolve(tables, sizeof tables, counts, sizeof counts, told, sizeof told)) return 1;
    print_bytes("after", tables, sizeof tables);
    print_bytes("counts", counts, sizeof counts);
    print_bytes("told", told, sizeof told);
    return 0;
}

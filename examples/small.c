// Two members, three payments, one resolution: prints what was settled and what still waits.
#include <inttypes.h>
#include <snarevapor.h>
#include <stdio.h>

static uint8_t tables[SNAREVAPOR_TABLES];

// Says why a call was refused, if it was.
static int refused(uint32_t code) {
    if (code != SNAREVAPOR_ACCEPTED) printf("refused with %" PRIu32 ": %s\n", code, snarevapor_word(code));
    return code != SNAREVAPOR_ACCEPTED;
}

int main(void) {
    uint8_t balances[2 * SNAREVAPOR_BALANCE_BYTES] = {0}, lines[2 * SNAREVAPOR_LINE_BYTES] = {0}, sum[SNAREVAPOR_OPEN_ANSWER];
    uint8_t counts[2 * SNAREVAPOR_COUNT_BYTES], told[SNAREVAPOR_RESOLVE_ANSWER];

    snarevapor_put(balances, SNAREVAPOR_BALANCE_BYTES, 10); // member 1 has 10, member 2 has 0, and neither has a line
    if (refused(snarevapor_open(tables, sizeof tables, 2, balances, sizeof balances, lines, sizeof lines, sum, sizeof sum))) return 1;
    refused(snarevapor_submit(tables, sizeof tables, 1, 1, 2, 30)); // payment 1 of member 1: 30 to member 2
    refused(snarevapor_submit(tables, sizeof tables, 2, 1, 1, 20)); // payment 1 of member 2: 20 to member 1
    refused(snarevapor_submit(tables, sizeof tables, 1, 2, 2, 5));  // payment 2 of member 1: 5 to member 2
    refused(snarevapor_submit(tables, sizeof tables, 1, 2, 2, 5));  // the same once more is refused, its number is out of turn

    if (refused(snarevapor_resolve(tables, sizeof tables, counts, sizeof counts, told, sizeof told))) return 1;
    printf("%s\n", snarevapor_verdict_word(snarevapor_part(told, SNAREVAPOR_RESOLVE_VERDICT)));
    printf("settled: %" PRIu64 " payments, ", snarevapor_part(told, SNAREVAPOR_RESOLVE_PAYMENTS));
    printf("%" PRId64 " in all\n", snarevapor_signed_part(told, SNAREVAPOR_RESOLVE_SUM));
    for (uint64_t member = 1; member <= snarevapor_members(tables); member++)
        printf("member %" PRIu64 " has %" PRId64 "\n", member, snarevapor_balance(tables, member));
    struct snarevapor_walk walk = snarevapor_walk_begin(tables);
    while (snarevapor_walk_next(&walk))
        printf("waiting: payment %" PRIu64 " of member %" PRIu64 ", %" PRIu64 " to member %" PRIu64 "\n", walk.number, walk.payer,
               walk.amount, walk.payee);
    return 0;
}

/* Refusals in words: the header's word for the code, and then what would be right. */
#define _POSIX_C_SOURCE 200809L
#include "floor.h"
#include <inttypes.h>

/* Begins a refusal; what would be right follows. */
void refused(const struct floor *floor, const char *why) {
    if (!floor->at_terminal) printf("line %ld: ", floor->line_number);
    printf("refused: %s", why);
}

/* Refuses a line that no call is made for. In an opening that nobody types it is the last one. */
enum outcome refuse_words(const struct floor *floor, const char *why) {
    refused(floor, why);
    printf("\n");
    return floor->is_open || floor->at_terminal ? GO_ON : REFUSED;
}

enum outcome refuse_line(const struct floor *floor, const struct line *line) {
    refused(floor, line->why);
    if (floor->replays) printf("\n");
    else if (line->about == BLANK) printf(" It may have %d bytes.\n", LINE_BYTES);
    else if (line->about == BAD) printf(" Type help.\n");
    else printf(" Type: %s\n", line_form(line->about));
    return floor->is_open || floor->at_terminal ? GO_ON : REFUSED;
}

void refuse_member(const struct floor *floor) {
    refused(floor, snarevapor_word(SNAREVAPOR_MEMBER));
    printf(". Members are 1 to %" PRIu64 ".\n", snarevapor_members(floor->tables));
}

static void right_number(const uint8_t *tables, uint64_t payer) {
    uint64_t next = snarevapor_next_number(tables, payer);
    if (next > SNAREVAPOR_MOST_NUMBER) printf(". Member %" PRIu64 " has no number left.\n", payer);
    else printf(". The next number of member %" PRIu64 " is %" PRIu64 ".\n", payer, next);
}

static void right_deposit(const uint8_t *tables) {
    int64_t room = SNAREVAPOR_MOST_SUM;
    for (uint64_t m = 1; m <= snarevapor_members(tables); m++) room -= snarevapor_balance(tables, m);
    printf(". All balances may reach %s; that is %s more.\n", money(SNAREVAPOR_MOST_SUM), money(room));
}

static void right_release(const uint8_t *tables) {
    struct flow flow = flow_of(tables, NULL);
    int heads = 0;
    for (uint64_t m = 1; m <= snarevapor_members(tables); m++)
        if (flow.out[m] > 0) printf("%s %" PRIu64, heads++ ? "," : ". Payments wait at:", m);
    printf(heads ? ".\n" : ". No payment waits at any member.\n");
}

static void right_cover(const uint8_t *tables, uint64_t member) {
    int64_t balance = snarevapor_balance(tables, member), line = snarevapor_line(tables, member);
    int64_t amount = (int64_t)head_of(tables, member).amount;
    printf(". Member %" PRIu64 " has %s", member, money(balance));
    if (line > 0) printf(" and a line of %s", money(line));
    printf(", and the head of its queue is %s: %s is missing. Deposit it, or try resolve.\n", money(amount), money(amount - balance - line));
}

static void right_group(const uint8_t *tables, const uint8_t *counts) {
    struct flow flow = flow_of(tables, counts);
    printf(".");
    for (uint64_t m = 1; m <= snarevapor_members(tables); m++) {
        int64_t left = snarevapor_balance(tables, m) + snarevapor_line(tables, m) - flow.out_sum[m] + flow.in_sum[m];
        if (left < 0) printf(" Member %" PRIu64 " would lack %s.", m, money(-left));
    }
    printf(" Propose other counts, or try resolve.\n");
}

static void right_counts(const uint8_t *tables, const struct line *line) {
    struct flow flow = flow_of(tables, NULL);
    uint64_t count = snarevapor_members(tables);
    if ((uint64_t)line->given != count) {
        printf(". Give one count for each of the %" PRIu64 " members; you gave %d.\n", count, line->given);
        return;
    }
    printf(".");
    for (uint64_t m = 1; m <= count; m++)
        if ((uint64_t)line->values[m - 1] > flow.out[m]) printf(" Member %" PRIu64 " has %" PRIu64 " waiting.", m, flow.out[m]);
    printf("\n");
}

/* Tells why a call was refused, and what would be right. The tables are as they were: a refused call changes nothing. */
void refuse_call(const struct floor *floor, const struct line *line, const struct reply *reply) {
    const uint8_t *tables = floor->tables;
    uint64_t member = (uint64_t)line->values[0];
    if (reply->code == SNAREVAPOR_MEMBER) {
        refuse_member(floor);
        return;
    }
    refused(floor, snarevapor_word(reply->code));
    switch (reply->code) {
    case SNAREVAPOR_SAME: printf(". Give another payee.\n"); break;
    case SNAREVAPOR_AMOUNT: printf(". An amount is 1 to %" PRId64 " cents.\n", SNAREVAPOR_MOST_AMOUNT); break;
    case SNAREVAPOR_NUMBER: right_number(tables, member); break;
    case SNAREVAPOR_FULL: printf(". %d wait already: release, group or resolve first.\n", SNAREVAPOR_PLACES); break;
    case SNAREVAPOR_MONEY: right_deposit(tables); break;
    case SNAREVAPOR_NOTHING: right_release(tables); break;
    case SNAREVAPOR_COVER: line->kind == RELEASE ? right_cover(tables, member) : right_group(tables, reply->counts); break;
    case SNAREVAPOR_COUNTS: right_counts(tables, line); break;
    default: printf(". Nothing was booked. Stop here and call for help.\n"); break;
    }
}

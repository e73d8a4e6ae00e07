/*
 * The lines of the day: what each call is lent, and what it answers.
 *
 * A booking is made on a copy of the tables first, shown, and asked about. Then the line goes to the file, and only then the call is made.
 */
#define _POSIX_C_SOURCE 200809L
#include "floor.h"
#include <inttypes.h>
#include <string.h>

static const size_t LENT = SNAREVAPOR_TABLES;

static uint8_t *count_at(struct reply *reply, uint64_t member) { return reply->counts + (member - 1) * SNAREVAPOR_COUNT_BYTES; }

static void make_deposit(uint8_t *tables, const struct line *line, struct reply *reply) {
    uint8_t answer[SNAREVAPOR_DEPOSIT_ANSWER] = {0};
    reply->code = snarevapor_deposit(tables, LENT, (uint64_t)line->values[0], (uint64_t)line->values[1], answer, sizeof answer);
    reply->balance = snarevapor_signed_part(answer, SNAREVAPOR_DEPOSIT_BALANCE);
}

static void make_release(uint8_t *tables, const struct line *line, struct reply *reply) {
    uint8_t answer[SNAREVAPOR_RELEASE_ANSWER] = {0};
    uint64_t member = (uint64_t)line->values[0];
    reply->payee = head_of(tables, member).payee;
    reply->code = snarevapor_release(tables, LENT, member, answer, sizeof answer);
    if (reply->code != SNAREVAPOR_ACCEPTED) return;
    reply->number = snarevapor_part(answer, SNAREVAPOR_RELEASE_NUMBER);
    reply->sum = snarevapor_signed_part(answer, SNAREVAPOR_RELEASE_AMOUNT);
    reply->payments = 1;
    snarevapor_put(count_at(reply, member), SNAREVAPOR_COUNT_BYTES, 1);
}

/* A count that a list cannot hold is above what waits, and so is the largest that it can. */
static void make_group(uint8_t *tables, const struct line *line, struct reply *reply) {
    uint8_t answer[SNAREVAPOR_GROUP_ANSWER] = {0};
    for (int i = 0; i < line->given; i++) {
        int64_t count = line->values[i] > SNAREVAPOR_MOST_COUNT ? SNAREVAPOR_MOST_COUNT : line->values[i];
        snarevapor_put(count_at(reply, (uint64_t)i + 1), SNAREVAPOR_COUNT_BYTES, (uint64_t)count);
    }
    reply->code = snarevapor_group(tables, LENT, reply->counts, (size_t)line->given * SNAREVAPOR_COUNT_BYTES, answer, sizeof answer);
    reply->payments = snarevapor_part(answer, SNAREVAPOR_GROUP_PAYMENTS);
    reply->sum = snarevapor_signed_part(answer, SNAREVAPOR_GROUP_SUM);
}

static void make_resolution(uint8_t *tables, struct reply *reply) {
    uint8_t answer[SNAREVAPOR_RESOLVE_ANSWER] = {0};
    size_t counts = snarevapor_members(tables) * SNAREVAPOR_COUNT_BYTES;
    reply->code = snarevapor_resolve(tables, LENT, reply->counts, counts, answer, sizeof answer);
    reply->verdict = snarevapor_part(answer, SNAREVAPOR_RESOLVE_VERDICT);
    reply->payments = snarevapor_part(answer, SNAREVAPOR_RESOLVE_PAYMENTS);
    reply->sum = snarevapor_signed_part(answer, SNAREVAPOR_RESOLVE_SUM);
}

/* Makes the call of a line on tables. */
static struct reply make_call(uint8_t *tables, const struct line *line) {
    struct reply reply = {0, 0, 0, 0, 0, 0, 0, {0}};
    const int64_t *v = line->values;
    switch (line->kind) {
    case DEPOSIT: make_deposit(tables, line, &reply); break;
    case RELEASE: make_release(tables, line, &reply); break;
    case GROUP: make_group(tables, line, &reply); break;
    case RESOLVE: make_resolution(tables, &reply); break;
    default: reply.code = snarevapor_submit(tables, LENT, (uint64_t)v[0], (uint64_t)v[1], (uint64_t)v[2], (uint64_t)v[3]); break;
    }
    return reply;
}

uint32_t call_again(struct floor *floor, const struct line *line) { return make_call(floor->tables, line).code; }

/* A payment that was typed without a number takes its payer's next one; 1 if there is no such payer. */
static void number_payment(const uint8_t *tables, struct line *line) {
    uint64_t payer = (uint64_t)line->values[0];
    if (line->given == 4) return;
    line->values[3] = line->values[2], line->values[2] = line->values[1], line->given = 4;
    line->values[1] = payer >= 1 && payer <= snarevapor_members(tables) ? (int64_t)snarevapor_next_number(tables, payer) : 1;
}

static void tell_payments(const char *before, const struct reply *reply, const char *end) {
    printf("%s %" PRIu64 " payment%s worth %s%s", before, reply->payments, reply->payments == 1 ? "" : "s", money(reply->sum), end);
}

/* Shows what a booking would do, and asks. What is refused, or settles nothing, needs no question. */
static int may_book(struct floor *floor, const struct line *line) {
    static uint8_t copy[SNAREVAPOR_TABLES];
    memcpy(copy, floor->tables, sizeof copy);
    struct reply reply = make_call(copy, line);
    if (reply.code != SNAREVAPOR_ACCEPTED) return 1;
    show_booking(floor->tables, copy, &reply, line->kind == RESOLVE);
    if (reply.payments == 0 || !floor->asks) return 1;
    tell_payments("Book", &reply, "?");
    return desk_ask(floor) == YES;
}

static void tell(const struct line *line, const struct reply *reply) {
    uint64_t member = (uint64_t)line->values[0];
    switch (line->kind) {
    case PAY:
        printf("queued: payment %" PRId64 " of member %" PRIu64 ", %s to %" PRId64 "\n", line->values[1], member, money(line->values[3]),
               line->values[2]);
        break;
    case DEPOSIT:
        printf("deposited: %s to member %" PRIu64 ", which now has %s\n", money(line->values[1]), member, money(reply->balance));
        break;
    case RELEASE:
        printf("released: payment %" PRIu64 " of member %" PRIu64 ", %s to %" PRIu64 "\n", reply->number, member, money(reply->sum),
               reply->payee);
        break;
    default:
        if (reply->payments > 0) tell_payments("booked:", reply, "\n");
        else printf("nothing was booked\n");
        break;
    }
}

/* A line of the day, as it is typed. */
enum outcome call_line(struct floor *floor, struct line *line) {
    if (night_is_full(&floor->night)) return refuse_words(floor, "the file has room for one line more, and that is end.");
    if (line->kind == PAY) number_payment(floor->tables, line);
    if ((line->kind == RELEASE || line->kind == GROUP || line->kind == RESOLVE) && !may_book(floor, line)) {
        printf("not booked\n");
        return GO_ON;
    }
    if (night_add(&floor->night, line) != 0) return FAILED;
    struct reply reply = make_call(floor->tables, line);
    if (reply.code == SNAREVAPOR_ACCEPTED) tell(line, &reply);
    else refuse_call(floor, line, &reply);
    return GO_ON;
}

/*
 * The opening: the house line and a line for each member, until the house is open.
 *
 * Each line goes to the file as it is understood, but the last member's only when the whole opening was judged on a copy of the tables: a
 * whole opening in the file is one that opens. If it is refused, the members at fault are named, and only those are typed again.
 */
#define _POSIX_C_SOURCE 200809L
#include "floor.h"
#include <inttypes.h>
#include <string.h>

static uint64_t set_of(uint64_t member) { return UINT64_C(1) << (member - 1); }

/* The member whose line is expected: the first that is to be typed again, the first that has none, or, if the sum is wrong, the largest. */
uint64_t opening_next(const struct opening *opening) {
    for (uint64_t m = 1; m <= opening->typed; m++)
        if (opening->wrong & set_of(m)) return m;
    return opening->typed < opening->count ? opening->typed + 1 : opening->largest;
}

/* ---- Its lines in the file ---- */

static struct line house_line_of(const struct opening *opening) {
    struct line line = {HOUSE, BAD, 2, {1, (int64_t)opening->count}, NULL};
    return line;
}

static struct line member_line_of(const struct opening *opening, uint64_t m) {
    struct line line = {MEMBER, BAD, 3, {(int64_t)m, opening->balances[m - 1], opening->lines[m - 1]}, NULL};
    return line;
}

/* Where a member's line begins in the file: behind that of the house, and those of the members before it. */
static off_t place_of(const struct opening *opening, uint64_t member) {
    char text[LINE_ROOM];
    struct line line = house_line_of(opening);
    write_line(&line, text);
    size_t at = strlen(text);
    for (uint64_t m = 1; m < member; m++) {
        line = member_line_of(opening, m);
        write_line(&line, text);
        at += strlen(text);
    }
    return (off_t)at;
}

/* Writes the member lines from `first` to `last` over those that stand there. */
static int store(struct floor *floor, uint64_t first, uint64_t last) {
    if (floor->replays) return 0;
    if (night_cut(&floor->night, place_of(&floor->opening, first), (long)first) != 0) return -1;
    for (uint64_t m = first; m <= last; m++) {
        struct line line = member_line_of(&floor->opening, m);
        if (night_add(&floor->night, &line) != 0) return -1;
    }
    return 0;
}

/* ---- What is wrong with it ---- */

/* Says what is wrong with a member by itself, if anything. */
static int is_at_fault(const struct opening *opening, uint64_t m) {
    int64_t balance = opening->balances[m - 1], line = opening->lines[m - 1];
    if (line > SNAREVAPOR_MOST_LINE)
        printf("\n  member %" PRIu64 ": its line is %s, and may be %s at most", m, money(line), money(SNAREVAPOR_MOST_LINE));
    else if (balance < -line) printf("\n  member %" PRIu64 ": its balance %s is below minus its line, %s", m, money(balance), money(-line));
    else if (balance > SNAREVAPOR_MOST_BALANCE)
        printf("\n  member %" PRIu64 ": its balance is %s, and may be %s at most", m, money(balance), money(SNAREVAPOR_MOST_BALANCE));
    else return 0;
    return 1;
}

/* Says that the sum is too large, and who has the most: no member is wrong by itself, so any may be typed again. */
static void name_largest(struct opening *opening) {
    int64_t sum = 0;
    opening->largest = 1;
    for (uint64_t m = 1; m <= opening->count; m++) {
        sum += opening->balances[m - 1];
        if (opening->balances[m - 1] > opening->balances[opening->largest - 1]) opening->largest = m;
    }
    printf("\n  the balances add up to %s, and may reach %s at most: %s too much\n  member %" PRIu64 " has the most: %s\n", money(sum),
           money(SNAREVAPOR_MOST_SUM), money(sum - SNAREVAPOR_MOST_SUM), opening->largest, money(opening->balances[opening->largest - 1]));
}

/* Names the members at fault. At a terminal only these are typed again. */
static enum outcome refuse_opening(struct floor *floor) {
    struct opening *opening = &floor->opening;
    refused(floor, snarevapor_word(SNAREVAPOR_OPENING));
    for (uint64_t m = 1; m <= opening->count; m++)
        if (is_at_fault(opening, m)) opening->wrong |= set_of(m);
    if (opening->wrong) printf("\n");
    else name_largest(opening);
    if (!floor->at_terminal) return REFUSED;
    printf(opening->wrong ? "Type these again; the other members stand.\n" : "Type the line again that is wrong; the other members stand.\n");
    return GO_ON;
}

/* ---- Its lines as they come ---- */

static uint32_t open_house(uint8_t *tables, const struct opening *opening, int64_t *sum) {
    uint8_t balances[SNAREVAPOR_MEMBERS * SNAREVAPOR_BALANCE_BYTES], lines[SNAREVAPOR_MEMBERS * SNAREVAPOR_LINE_BYTES];
    uint8_t answer[SNAREVAPOR_OPEN_ANSWER] = {0};
    for (size_t i = 0; i < opening->count; i++) {
        snarevapor_put(balances + i * SNAREVAPOR_BALANCE_BYTES, SNAREVAPOR_BALANCE_BYTES, (uint64_t)opening->balances[i]);
        snarevapor_put(lines + i * SNAREVAPOR_LINE_BYTES, SNAREVAPOR_LINE_BYTES, (uint64_t)opening->lines[i]);
    }
    uint32_t code = snarevapor_open(tables, SNAREVAPOR_TABLES, opening->count, balances, opening->count * SNAREVAPOR_BALANCE_BYTES, lines,
                                    opening->count * SNAREVAPOR_LINE_BYTES, answer, sizeof answer);
    *sum = snarevapor_signed_part(answer, SNAREVAPOR_OPEN_SUM);
    return code;
}

/* All members have their lines: tries them on a copy, and if they open a house, writes the last line and opens it. */
static enum outcome judge(struct floor *floor) {
    static uint8_t copy[SNAREVAPOR_TABLES];
    struct opening *opening = &floor->opening;
    int64_t sum;
    if (open_house(copy, opening, &sum) != SNAREVAPOR_ACCEPTED) return refuse_opening(floor);
    if (store(floor, opening->count, opening->count) != 0) return FAILED;
    floor->is_open = open_house(floor->tables, opening, &sum) == SNAREVAPOR_ACCEPTED;
    if (!floor->replays) printf("open: members 1 to %" PRIu64 ", with %s in all\n", opening->count, money(sum));
    return GO_ON;
}

static enum outcome house_line(struct floor *floor, const struct line *line) {
    struct opening begun = {0, 0, 0, 0, {0}, {0}};
    int64_t count = line->values[1];
    if (floor->opening.count > 0 && !floor->at_terminal) return refuse_words(floor, "the member lines are not done yet.");
    if (line->values[0] != 1) return refuse_words(floor, "the edition must be 1. Type: house 1 MEMBERS");
    if (count < 1 || count > SNAREVAPOR_MEMBERS) {
        refused(floor, snarevapor_word(SNAREVAPOR_OPENING));
        printf(". A house has 1 to %d members.\n", SNAREVAPOR_MEMBERS);
        return floor->at_terminal ? GO_ON : REFUSED;
    }
    if (floor->opening.typed > 0 && floor->asks) {
        printf("Begin the opening again?");
        if (desk_ask(floor) != YES) return GO_ON;
    }
    if (!floor->replays && (night_cut(&floor->night, 0, 0) != 0 || night_add(&floor->night, line) != 0)) return FAILED;
    floor->opening = begun;
    floor->opening.count = (uint64_t)count;
    return GO_ON;
}

static enum outcome member_line(struct floor *floor, const struct line *line) {
    struct opening *opening = &floor->opening;
    uint64_t m = (uint64_t)line->values[0], next = opening_next(opening);
    if (opening->count == 0) return refuse_words(floor, "no house yet. Type: house 1 MEMBERS");
    int again = floor->at_terminal && m >= 1 && m <= opening->typed;
    if (!again && (m != opening->typed + 1 || m > opening->count)) {
        refused(floor, "members come in order.");
        printf(" Member %" PRIu64 " is next.\n", next);
        return floor->at_terminal ? GO_ON : REFUSED;
    }
    opening->balances[m - 1] = line->values[1], opening->lines[m - 1] = line->values[2];
    opening->wrong &= ~set_of(m);
    if (!again) opening->typed = m;
    uint64_t last = opening->typed < opening->count ? opening->typed : opening->count - 1;
    if (m <= last && store(floor, m, last) != 0) return FAILED;
    return opening->typed < opening->count || opening->wrong ? GO_ON : judge(floor);
}

/* A line before the house is open. */
enum outcome opening_line(struct floor *floor, const struct line *line) {
    if (line->kind == HOUSE) return house_line(floor, line);
    if (line->kind == MEMBER) return member_line(floor, line);
    return refuse_words(floor, floor->opening.count > 0 ? "the member lines are not done yet." : "no house yet. Type: house 1 MEMBERS");
}

/* What stands in the tables, for the eye: all members, one member's queue, and what a booking would do. Nothing here decides anything. */
#define _POSIX_C_SOURCE 200809L
#include "floor.h"
#include <inttypes.h>
#include <string.h>

/* ---- Amounts, queues ---- */

/* Cents as 1,234.56, in one of a few rooms, so that one line of text can show several. */
const char *money(int64_t cents) {
    static char rooms[8][32];
    static int room;
    uint64_t rest = cents < 0 ? (uint64_t)-(cents + 1) + 1 : (uint64_t)cents;
    char *at = rooms[room = (room + 1) % 8] + 31;
    *at = 0;
    for (int digit = 0; digit < 3 || rest > 0; digit++, rest /= 10) {
        if (digit == 2) *--at = '.';
        if (digit > 2 && (digit - 2) % 3 == 0) *--at = ',';
        *--at = (char)('0' + rest % 10);
    }
    if (cents < 0) *--at = '-';
    return at;
}

/* What flows if so many payments are taken from each queue; all of them without a list of counts. */
struct flow flow_of(const uint8_t *tables, const uint8_t *counts) {
    struct flow flow = {{0}, {0}, {0}, {0}};
    struct snarevapor_walk walk = snarevapor_walk_begin(tables);
    while (snarevapor_walk_next(&walk)) {
        const uint8_t *count = counts ? counts + (walk.payer - 1) * SNAREVAPOR_COUNT_BYTES : NULL;
        if (count && flow.out[walk.payer] >= snarevapor_get(count, SNAREVAPOR_COUNT_BYTES)) continue;
        flow.out[walk.payer]++, flow.out_sum[walk.payer] += (int64_t)walk.amount;
        flow.in[walk.payee]++, flow.in_sum[walk.payee] += (int64_t)walk.amount;
    }
    return flow;
}

/* The head of a member's queue; its amount is 0 if nothing waits there. */
struct snarevapor_walk head_of(const uint8_t *tables, uint64_t member) {
    struct snarevapor_walk walk = snarevapor_walk_begin(tables);
    while (snarevapor_walk_next(&walk))
        if (walk.payer == member) return walk;
    return snarevapor_walk_begin(tables);
}

/* ---- Rows and columns: row 0 has the titles, each member has its row, and one may follow ---- */

enum { ROWS = SNAREVAPOR_MEMBERS + 2, COLUMNS = 9, HEAD = 8, CELL = 48 };

static char cells[ROWS][COLUMNS][CELL];

static void cell(uint64_t row, int column, const char *text) { snprintf(cells[row][column], CELL, "%s", text); }
static void cell_number(uint64_t row, int column, uint64_t n) { snprintf(cells[row][column], CELL, "%" PRIu64, n); }

/* Prints the rows up to `last` that have a first cell: each column to the right, but the head of the queue to the left. */
static void print_cells(uint64_t last, int columns) {
    int width[COLUMNS] = {0};
    for (uint64_t r = 0; r <= last; r++)
        for (int c = 0; c < columns; c++)
            if (cells[r][0][0] && (int)strlen(cells[r][c]) > width[c]) width[c] = (int)strlen(cells[r][c]);
    for (uint64_t r = 0; r <= last; r++) {
        if (!cells[r][0][0]) continue;
        for (int c = 0; c < columns && cells[r][c][0]; c++) printf("%s%*s", c ? "  " : "", c == HEAD ? 0 : width[c], cells[r][c]);
        printf("\n");
    }
}

static void titles(const char *const *words, int columns) {
    for (int c = 0; c < columns; c++) cell(0, c, words[c]);
}

/* ---- The house ---- */

static void house_row(uint64_t row, int64_t balance, int64_t line, uint64_t out, int64_t out_sum, uint64_t in, int64_t in_sum) {
    cell_number(row, 0, row);
    cell(row, 1, money(balance)), cell(row, 2, money(line));
    cell_number(row, 3, out), cell(row, 4, money(out_sum));
    cell_number(row, 5, in), cell(row, 6, money(in_sum));
}

static void house_next(const uint8_t *tables, uint64_t m) {
    struct snarevapor_walk head = head_of(tables, m);
    cell_number(m, 7, snarevapor_next_number(tables, m));
    if (head.amount == 0) cell(m, HEAD, "-");
    else snprintf(cells[m][HEAD], CELL, "%s to %" PRIu64 " (no. %" PRIu64 ")", money((int64_t)head.amount), head.payee, head.number);
}

/* A row for each member, with what goes out, what comes in, its next number, and the head of its queue; and a row for all. */
void show_house(const uint8_t *tables) {
    static const char *const words[COLUMNS] = {"member", "balance", "line", "out", "going out", "in", "coming in", "next no.", "head"};
    struct flow flow = flow_of(tables, NULL);
    int64_t balance = 0, line = 0, sum = 0;
    uint64_t count = snarevapor_members(tables), waiting = snarevapor_waiting(tables);
    titles(words, COLUMNS);
    for (uint64_t m = 1; m <= count; m++) {
        house_row(m, snarevapor_balance(tables, m), snarevapor_line(tables, m), flow.out[m], flow.out_sum[m], flow.in[m], flow.in_sum[m]);
        house_next(tables, m);
        balance += snarevapor_balance(tables, m), line += snarevapor_line(tables, m), sum += flow.out_sum[m];
    }
    house_row(count + 1, balance, line, waiting, sum, waiting, sum);
    cell(count + 1, 0, "all"), cell(count + 1, 7, "");
    print_cells(count + 1, COLUMNS);
}

/* The queue of one member, from its head on, and the sum up to each payment. */
void show_member(const uint8_t *tables, uint64_t member) {
    struct snarevapor_walk walk = snarevapor_walk_begin(tables);
    int64_t balance = snarevapor_balance(tables, member), line = snarevapor_line(tables, member), sum = 0;
    printf("member %" PRIu64 ": balance %s, line %s, cover %s, ", member, money(balance), money(line), money(balance + line));
    printf("next number %" PRIu64 "\n", snarevapor_next_number(tables, member));
    if (head_of(tables, member).amount == 0) printf("%s\n", snarevapor_word(SNAREVAPOR_NOTHING));
    else printf("%10s  %5s  %21s  %21s\n", "number", "payee", "amount", "sum");
    while (snarevapor_walk_next(&walk))
        if (walk.payer == member)
            printf("%10" PRIu64 "  %5" PRIu64 "  %21s  %21s\n", walk.number, walk.payee, money((int64_t)walk.amount),
                   money(sum += (int64_t)walk.amount));
}

/* ---- A booking ---- */

/* The numbers of the payments that a member settles. */
static void cell_numbers(uint64_t row, int column, uint64_t first, uint64_t payments) {
    if (payments == 0) cell(row, column, "-");
    else if (payments == 1) cell_number(row, column, first);
    else snprintf(cells[row][column], CELL, "%" PRIu64 " to %" PRIu64, first, first + payments - 1);
}

/* What a booking settles, for each member that it touches, and for a resolution also each that still waits. The tables before it are the
 * house's; those after it are a copy, on which it was made. */
void show_booking(const uint8_t *before, const uint8_t *after, const struct reply *reply, int resolves) {
    static const char *const words[] = {"member", "settles", "numbers", "going out", "coming in", "balance", "then", "still waiting"};
    struct flow all = flow_of(before, NULL), flow = flow_of(before, reply->counts);
    uint64_t count = snarevapor_members(before);
    if (resolves) printf("verdict: %s\n", snarevapor_verdict_word(reply->verdict));
    titles(words, 8);
    for (uint64_t m = 1; m <= count; m++) {
        cell_number(m, 0, m), cell_number(m, 1, flow.out[m]);
        cell_numbers(m, 2, snarevapor_settled(before, m) + 1, flow.out[m]);
        cell(m, 3, money(flow.out_sum[m])), cell(m, 4, money(flow.in_sum[m]));
        cell(m, 5, money(snarevapor_balance(before, m))), cell(m, 6, money(snarevapor_balance(after, m)));
        cell_number(m, 7, all.out[m] - flow.out[m]);
        if (flow.out[m] + flow.in[m] + (resolves ? all.out[m] : 0) == 0) cell(m, 0, "");
    }
    if (reply->payments > 0 || (resolves && reply->verdict != SNAREVAPOR_EMPTY)) print_cells(count, 8);
}

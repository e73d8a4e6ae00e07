/* A refused call writes nothing, not even equal bytes: here all that is lent can only be read while a call is refused. */
#define _DEFAULT_SOURCE
#include "snarevapor.h"
#include <stdio.h>
#include <string.h>
#include <sys/mman.h>

enum { ROOM = 65536, COUNTS = 40960, ANSWER = 45056 };

static uint8_t *lent; /* the tables, then the counts, then the answer */

static int failures;

static void refuses(const char *what, uint32_t code, uint32_t wanted) {
    if (code == wanted) return;
    printf("%s: code %u, and not %u\n", what, (unsigned)code, (unsigned)wanted);
    failures++;
}

static void open_two(void) {
    uint8_t balances[2 * SNAREVAPOR_BALANCE_BYTES] = {0}, lines[2 * SNAREVAPOR_LINE_BYTES] = {0};
    snarevapor_put(balances, SNAREVAPOR_BALANCE_BYTES, (uint64_t)SNAREVAPOR_MOST_SUM);
    refuses("open", snarevapor_open(lent, SNAREVAPOR_TABLES, 2, balances, sizeof balances, lines, sizeof lines, lent + ANSWER, 48), 0);
    refuses("submit", snarevapor_submit(lent, SNAREVAPOR_TABLES, 2, 1, 1, 5), 0);
}

int main(void) {
    const size_t length = SNAREVAPOR_TABLES;
    uint8_t bad[2 * SNAREVAPOR_BALANCE_BYTES] = {0}, lines[2 * SNAREVAPOR_LINE_BYTES] = {0}, ones[2 * SNAREVAPOR_COUNT_BYTES] = {1};
    lent = mmap(NULL, ROOM, PROT_READ | PROT_WRITE, MAP_PRIVATE | MAP_ANONYMOUS, -1, 0);
    if (lent == MAP_FAILED) return 2;
    snarevapor_put(bad, SNAREVAPOR_BALANCE_BYTES, (uint64_t)-1);
    open_two();
    uint8_t *counts = lent + COUNTS, *answer = lent + ANSWER, two[2 * SNAREVAPOR_COUNT_BYTES] = {0, 0, 1, 0};
    if (mprotect(lent, ROOM, PROT_READ) != 0) return 2;
    refuses("a bad opening", snarevapor_open(lent, length, 2, bad, sizeof bad, lines, sizeof lines, answer, 48), SNAREVAPOR_OPENING);
    refuses("an opening of none", snarevapor_open(lent, length, 0, bad, 0, lines, 0, answer, 48), SNAREVAPOR_OPENING);
    refuses("a short opening", snarevapor_open(lent, length - 1, 2, lines, sizeof lines, lines, sizeof lines, answer, 48), SNAREVAPOR_STATE);
    refuses("a deposit to nobody", snarevapor_deposit(lent, length, 3, 1, answer, 8), SNAREVAPOR_MEMBER);
    refuses("a deposit of nothing", snarevapor_deposit(lent, length, 1, 0, answer, 8), SNAREVAPOR_AMOUNT);
    refuses("a deposit of too much", snarevapor_deposit(lent, length, 1, 1, answer, 8), SNAREVAPOR_MONEY);
    refuses("a deposit without an answer", snarevapor_deposit(lent, length, 1, 1, answer, 7), SNAREVAPOR_STATE);
    refuses("a payment to nobody", snarevapor_submit(lent, length, 1, 1, 3, 5), SNAREVAPOR_MEMBER);
    refuses("a payment to itself", snarevapor_submit(lent, length, 1, 1, 1, 5), SNAREVAPOR_SAME);
    refuses("a payment of nothing", snarevapor_submit(lent, length, 1, 1, 2, 0), SNAREVAPOR_AMOUNT);
    refuses("a payment once more", snarevapor_submit(lent, length, 2, 1, 1, 5), SNAREVAPOR_NUMBER);
    refuses("a release of nobody", snarevapor_release(lent, length, 0, answer, 16), SNAREVAPOR_MEMBER);
    refuses("a release of nothing", snarevapor_release(lent, length, 1, answer, 16), SNAREVAPOR_NOTHING);
    refuses("a release without cover", snarevapor_release(lent, length, 2, answer, 16), SNAREVAPOR_COVER);
    refuses("a group without cover", snarevapor_group(lent, length, two, sizeof two, answer, 16), SNAREVAPOR_COVER);
    refuses("a group of too many", snarevapor_group(lent, length, ones, sizeof ones, answer, 16), SNAREVAPOR_COUNTS);
    refuses("a group of one", snarevapor_group(lent, length, two, 2, answer, 16), SNAREVAPOR_COUNTS);
    refuses("a resolution of one", snarevapor_resolve(lent, length, counts, 2, answer, 48), SNAREVAPOR_COUNTS);
    refuses("a resolution without an answer", snarevapor_resolve(lent, length, counts, 4, answer, 47), SNAREVAPOR_STATE);
    if (mprotect(lent, ROOM, PROT_READ | PROT_WRITE) != 0) return 2;
    lent[SNAREVAPOR_TABLES - 1] = 1;
    if (mprotect(lent, ROOM, PROT_READ) != 0) return 2;
    refuses("tables without a house", snarevapor_resolve(lent, length, counts, 4, answer, 48), SNAREVAPOR_STATE);
    return failures > 0;
}

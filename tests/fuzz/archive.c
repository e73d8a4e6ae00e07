/* A fuzzer of the static archive: bytes are read as calls and as damage to the tables, and after each call it is looked whether
 *   - the code is one that the header names for the call,
 *   - a refusal left every byte that was lent, and nothing past the lengths that were lent was touched,
 *   - the sum of balances is as before plus an accepted deposit,
 *   - no member stands below minus its line after an accepted call.
 * Which call gave which code is counted in a table of its own, which guides the fuzzer. */
#include <stdint.h>
#include <stdio.h>
#include <stdlib.h>
#include <string.h>
#include "../../include/snarevapor.h"

enum { TABLES = 22528, MEMBERS = 4096, ANSWER = 48, LIST = 64 * 8, PAST = 16 };

static uint8_t tables[TABLES + PAST], answer[ANSWER + PAST], list[LIST + PAST], more[LIST];
static uint8_t tables_before[sizeof tables], answer_before[sizeof answer], list_before[sizeof list];
static const uint8_t *input;
static size_t left;
__attribute__((section("__libfuzzer_extra_counters"))) static uint8_t answered[6 * 16]; /* which call gave which code */
static unsigned long seen[6 * 16];                                                         /* the same over all runs, told in the end */

static void wrong(const char *what, uint32_t code) {
    fprintf(stderr, "fuzz: %s (code %u)\n", what, (unsigned)code);
    abort();
}

/* The next byte of the input, or 0. */
static uint8_t byte(void) {
    if (left == 0) return 0;
    left--;
    return *input++;
}

/* A number: mostly small, at times at a limit, at times any. */
static uint64_t number(void) {
    static const uint64_t limits[] = {0, 64, 65, 4294967295u, 4294967296u, 1000000000000u, 1000000000001u, 1000000000000000u, UINT64_MAX};
    uint8_t kind = byte();
    uint64_t any = 0;
    if (kind < 200) return kind % 10;
    if (kind < 250) return limits[kind % 9];
    for (int i = 0; i < 8; i++) any = any << 8 | byte();
    return any;
}

static int64_t account(const uint8_t *from, int place) {
    uint64_t x = 0;
    for (int i = 7; i >= 0; i--) x = x << 8 | from[8 * place + i];
    return (int64_t)x;
}

static int64_t money(const uint8_t *from) {
    uint64_t sum = 0;
    for (int i = 0; i < 64; i++) sum += (uint64_t)account(from, i);
    return (int64_t)sum;
}

/* Fills a list of entries of so many bytes with numbers, and gives its length in bytes. */
static size_t entries(uint8_t *to, size_t count, size_t wide) {
    size_t at = 0;
    for (size_t i = 0; i < count; i++) {
        uint64_t x = number();
        for (size_t j = 0; j < wide && at < LIST; j++) to[at++] = (uint8_t)(x >> 8 * j);
    }
    return at;
}

/* After a call: what holds for every call, with what an accepted one adds to the sum of balances. */
static void look(unsigned call, uint32_t code, const char *codes, uint64_t added, int is_open) {
    if (code > 11 || !strchr(codes, 'a' + (int)code)) wrong("a code that the call does not have", code);
    answered[call * 16 + code]++;
    seen[call * 16 + code]++;
    if (memcmp(tables + TABLES, tables_before + TABLES, PAST) || memcmp(answer + ANSWER, answer_before + ANSWER, PAST)
        || memcmp(list + LIST, list_before + LIST, PAST))
        wrong("a byte past the end was touched", code);
    if (code != 0) {
        if (memcmp(tables, tables_before, TABLES) || memcmp(answer, answer_before, ANSWER) || memcmp(list, list_before, LIST))
            wrong("a refusal changed what was lent", code);
        return;
    }
    if (!is_open && (uint64_t)money(tables) != (uint64_t)money(tables_before) + added) wrong("the sum of balances is another", code);
    for (int i = 0; i < 64; i++)
        if (account(tables, i) + account(tables, 64 + i) < 0) wrong("a member is below minus its line", code);
}

/* What the tables were before a call. */
static void keep(void) {
    memcpy(tables_before, tables, sizeof tables);
    memcpy(answer_before, answer, sizeof answer);
    memcpy(list_before, list, sizeof list);
}

/* The number that a member gives next. */
static uint64_t next(uint64_t payer) {
    uint64_t last = 0;
    if (payer < 1 || payer > 64) return 1;
    for (int i = 3; i >= 0; i--) last = last << 8 | tables[MEMBERS + 4 * (63 + payer) + (unsigned)i];
    return last + 1;
}

/* Payments of a member, so many, or until one is refused. */
static void fill(uint64_t payer, uint64_t payee, uint64_t amount, unsigned count) {
    uint32_t code = 0;
    while (code == 0 && count-- > 0) {
        keep();
        code = snarevapor_submit(tables, TABLES, payer, next(payer), payee, amount);
        look(2, code, "abcdefg", 0, 0);
    }
}

/* A house of small balances and lines, which is mostly in order. */
static void begin(uint64_t count, size_t lent) {
    size_t listed = count > 64 ? 64 : count, length = entries(list, listed, 8), second = entries(more, listed, 8);
    keep();
    look(0, snarevapor_open(tables, lent, count, list, length, more, second, answer, ANSWER), "abl", 0, 1);
}

static void tell(void) {
    static const char *const calls[] = {"open", "deposit", "submit", "release", "group", "resolve"};
    for (int i = 0; i < 6 * 16; i++)
        if (seen[i]) fprintf(stderr, "answered: %s %d, %lu times\n", calls[i / 16], i % 16, seen[i]);
}

int LLVMFuzzerInitialize(int *count, char ***words) {
    (void)count, (void)words;
    return atexit(tell);
}

int LLVMFuzzerTestOneInput(const uint8_t *data, size_t size) {
    input = data;
    left = size;
    memset(tables, 0, sizeof tables);
    begin(1 + byte() % 64, TABLES);
    for (int calls = 0; left > 0 && calls < 200; calls++) {
        uint8_t call = byte() % 10, odd = byte();
        uint64_t a = number(), b = number(), c = number(), d = number();
        size_t lent = odd == 255 ? TABLES - 1 : TABLES, told = odd == 254 ? byte() % ANSWER : ANSWER, length = 0;
        if (call == 4 || call == 5) length = entries(list, odd == 253 ? byte() % 65 : tables[MEMBERS], 2);
        keep();
        switch (call) {
        case 0: if (odd >= 240) begin(a, lent); break;
        case 1: look(1, snarevapor_deposit(tables, lent, a, b, answer, told), "abceh", b, 0); break;
        case 2: look(2, snarevapor_submit(tables, lent, a, b, c, d), "abcdefg", 0, 0); break;
        case 3: look(3, snarevapor_release(tables, lent, a, answer, told), "abcij", 0, 0); break;
        case 4: look(4, snarevapor_group(tables, lent, list, length, answer, told), "abjk", 0, 0); break;
        case 5: look(5, snarevapor_resolve(tables, lent, list, length, answer, told), "abk", 0, 0); break;
        case 6: if (odd >= 240) tables[(a << 8 ^ b) % TABLES] ^= (uint8_t)(1u << c % 8); break;
        case 7: fill(a, c, d, odd == 252 ? 2049 : odd % 64); break;
        default: fill(a, c, d, 1);
        }
    }
    return 0;
}

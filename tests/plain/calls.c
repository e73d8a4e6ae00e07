/* The six calls on lent tables as plain C has them: the yardstick of tests/figures beside the archive, proved by nobody. The tables are
   judged whole on each call, as the archive does, and worked on where they lie. They must stand at an address that 8 divides, and answers
   and lists be long enough. */
#include "calls.h"
#include <string.h>

enum { MEMBERS = 64, PLACES = 2048 };
static const int64_t MOST_AMOUNT = 1000000000000, MOST_LINE = 1000000000000, MOST_MONEY = 1000000000000000;

struct tables {
    int64_t balance[64], line[64], spare[384];
    uint32_t count, waiting, none[62], last[64], settled[64], rest[320];
    uint64_t place[PLACES];
};

static int payer_of(uint64_t word) { return (int)(word >> 6 & 63); }
static int payee_of(uint64_t word) { return (int)(word & 63); }
static int64_t amount_of(uint64_t word) { return (int64_t)(word >> 16); }

static int is_state(const struct tables *t) {
    uint32_t n = t->count, waits[MEMBERS] = {0};
    uint64_t odd = 0;
    int64_t sum = 0;
    if (n < 1 || n > MEMBERS || t->waiting > PLACES) return 0;
    for (uint32_t m = 0; m < n; m++) {
        int64_t b = t->balance[m], l = t->line[m];
        odd |= (uint64_t)((l < 0) | (l > MOST_LINE) | (b < -l) | (b > 2 * MOST_MONEY));
        sum += b;
    }
    for (uint32_t m = n; m < MEMBERS; m++) odd |= (uint64_t)t->balance[m] | (uint64_t)t->line[m] | t->last[m] | t->settled[m];
    for (int i = 0; i < 384; i++) odd |= (uint64_t)t->spare[i];
    for (int i = 0; i < 62; i++) odd |= t->none[i];
    for (int i = 0; i < 320; i++) odd |= t->rest[i];
    for (uint32_t i = t->waiting; i < PLACES; i++) odd |= t->place[i];
    if (odd || sum > MOST_MONEY) return 0;
    for (uint32_t i = 0; i < t->waiting; i++) {
        uint64_t w = t->place[i];
        uint32_t from = (uint32_t)payer_of(w), to = (uint32_t)payee_of(w);
        if (from >= n || to >= n || from == to || (w >> 12 & 15) || amount_of(w) < 1 || amount_of(w) > MOST_AMOUNT) return 0;
        waits[from]++;
    }
    for (uint32_t m = 0; m < n; m++)
        if ((uint64_t)t->settled[m] + waits[m] != t->last[m]) return 0;
    return 1;
}

/* Settles that many payments of each member; the others close up. */
static void book(struct tables *t, const uint32_t *counts, uint64_t *payments, uint64_t *sum) {
    uint32_t left[MEMBERS], to = 0;
    memcpy(left, counts, sizeof left);
    *payments = *sum = 0;
    for (uint32_t i = 0; i < t->waiting; i++) {
        uint64_t w = t->place[i];
        int from = payer_of(w);
        if (!left[from]) {
            t->place[to++] = w;
            continue;
        }
        left[from]--;
        t->balance[from] -= amount_of(w);
        t->balance[payee_of(w)] += amount_of(w);
        t->settled[from]++;
        ++*payments;
        *sum += (uint64_t)amount_of(w);
    }
    memset(t->place + to, 0, 8 * (t->waiting - to));
    t->waiting = to;
}

uint32_t plain_open(uint8_t *tables, uint64_t count, const uint8_t *balances, const uint8_t *lines, uint8_t *answer) {
    struct tables *t = (struct tables *)tables;
    int64_t b[MEMBERS], l[MEMBERS], sum = 0;
    if (count < 1 || count > MEMBERS) return 11;
    memcpy(b, balances, 8 * count);
    memcpy(l, lines, 8 * count);
    for (uint64_t m = 0; m < count; m++) {
        if (l[m] < 0 || l[m] > MOST_LINE || b[m] < -l[m] || b[m] > 2 * MOST_MONEY) return 11;
        sum += b[m];
    }
    if (sum > MOST_MONEY) return 11;
    memset(t, 0, sizeof *t);
    memcpy(t->balance, b, 8 * count);
    memcpy(t->line, l, 8 * count);
    t->count = (uint32_t)count;
    memcpy(answer, &sum, 8);
    return 0;
}

uint32_t plain_deposit(uint8_t *tables, uint64_t member, uint64_t amount, uint8_t *answer) {
    struct tables *t = (struct tables *)tables;
    int64_t sum = 0;
    if (!is_state(t)) return 1;
    if (member < 1 || member > t->count) return 2;
    if (amount < 1 || amount > (uint64_t)MOST_AMOUNT) return 4;
    for (uint32_t m = 0; m < t->count; m++) sum += t->balance[m];
    if (sum + (int64_t)amount > MOST_MONEY) return 7;
    t->balance[member - 1] += (int64_t)amount;
    memcpy(answer, &t->balance[member - 1], 8);
    return 0;
}

uint32_t plain_submit(uint8_t *tables, uint64_t payer, uint64_t number, uint64_t payee, uint64_t amount) {
    struct tables *t = (struct tables *)tables;
    if (!is_state(t)) return 1;
    if (payer < 1 || payer > t->count || payee < 1 || payee > t->count) return 2;
    if (payer == payee) return 3;
    if (amount < 1 || amount > (uint64_t)MOST_AMOUNT) return 4;
    if (number != (uint64_t)t->last[payer - 1] + 1 || number > UINT32_MAX) return 5;
    if (t->waiting == PLACES) return 6;
    t->place[t->waiting++] = amount << 16 | (payer - 1) << 6 | (payee - 1);
    t->last[payer - 1]++;
    return 0;
}

uint32_t plain_release(uint8_t *tables, uint64_t member, uint8_t *answer) {
    struct tables *t = (struct tables *)tables;
    uint32_t at = 0;
    if (!is_state(t)) return 1;
    if (member < 1 || member > t->count) return 2;
    while (at < t->waiting && (uint64_t)payer_of(t->place[at]) != member - 1) at++;
    if (at == t->waiting) return 8;
    int64_t amount = amount_of(t->place[at]);
    if (t->balance[member - 1] + t->line[member - 1] < amount) return 9;
    uint64_t told[2] = {(uint64_t)t->settled[member - 1] + 1, (uint64_t)amount};
    t->balance[member - 1] -= amount;
    t->balance[payee_of(t->place[at])] += amount;
    t->settled[member - 1]++;
    t->waiting--;
    memmove(t->place + at, t->place + at + 1, 8 * (t->waiting - at));
    t->place[t->waiting] = 0;
    memcpy(answer, told, sizeof told);
    return 0;
}

uint32_t plain_group(uint8_t *tables, const uint8_t *lent, size_t length, uint8_t *answer) {
    struct tables *t = (struct tables *)tables;
    uint32_t counts[MEMBERS] = {0}, seen[MEMBERS] = {0};
    int64_t position[MEMBERS];
    uint64_t told[2];
    if (!is_state(t)) return 1;
    if (length != 2 * (size_t)t->count) return 10;
    for (uint32_t m = 0; m < t->count; m++) {
        counts[m] = lent[2 * m] | (uint32_t)lent[2 * m + 1] << 8;
        if (counts[m] > t->last[m] - t->settled[m]) return 10;
        position[m] = t->balance[m] + t->line[m];
    }
    for (uint32_t i = 0; i < t->waiting; i++) {
        uint64_t w = t->place[i];
        if (seen[payer_of(w)]++ >= counts[payer_of(w)]) continue;
        position[payer_of(w)] -= amount_of(w);
        position[payee_of(w)] += amount_of(w);
    }
    for (uint32_t m = 0; m < t->count; m++)
        if (position[m] < 0) return 9;
    book(t, counts, &told[0], &told[1]);
    memcpy(answer, told, sizeof told);
    return 0;
}

/* All payments, less the last one of a short member, again and again. */
uint32_t plain_resolve(uint8_t *tables, uint8_t *lent, size_t length, uint8_t *answer) {
    struct tables *t = (struct tables *)tables;
    uint32_t counts[MEMBERS] = {0}, shorts[MEMBERS], n = 0, waited;
    uint16_t top[MEMBERS] = {0}, before[PLACES];
    int64_t position[MEMBERS];
    uint64_t told[6] = {0};
    if (!is_state(t)) return 1;
    if (length != 2 * (size_t)t->count) return 10;
    waited = t->waiting;
    for (uint32_t m = 0; m < t->count; m++) position[m] = t->balance[m] + t->line[m];
    for (uint32_t i = 0; i < waited; i++) {
        uint64_t w = t->place[i];
        int from = payer_of(w);
        before[i] = top[from];
        top[from] = (uint16_t)i;
        counts[from]++;
        position[from] -= amount_of(w);
        position[payee_of(w)] += amount_of(w);
    }
    for (uint32_t m = 0; m < t->count; m++)
        if (position[m] < 0) shorts[n++] = m;
    while (n) {
        uint32_t m = shorts[--n];
        while (position[m] < 0) {
            uint64_t w = t->place[top[m]];
            int64_t had = position[payee_of(w)];
            top[m] = before[top[m]];
            counts[m]--;
            position[m] += amount_of(w);
            position[payee_of(w)] = had - amount_of(w);
            if (had >= 0 && had < amount_of(w)) shorts[n++] = (uint32_t)payee_of(w);
        }
    }
    book(t, counts, &told[1], &told[2]);
    told[0] = !waited ? 0 : !t->waiting ? 1 : told[1] ? 2 : 3;
    for (uint32_t m = t->count; m--;) {
        lent[2 * m] = (uint8_t)counts[m];
        lent[2 * m + 1] = (uint8_t)(counts[m] >> 8);
        if (t->last[m] != t->settled[m]) told[3] |= 1ull << m, told[4]++, told[5] = m + 1;
    }
    memcpy(answer, told, sizeof told);
    return 0;
}

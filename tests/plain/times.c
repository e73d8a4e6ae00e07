/* How long each call takes in the archive and in plain C, over the same bytes; both must leave the same. A line for each: what, the
   archive's microseconds, plain C's, with tabs between them. */
#define _POSIX_C_SOURCE 200809L
#include "../../include/snarevapor.h"
#include "calls.h"
#include <stdio.h>
#include <stdlib.h>
#include <string.h>
#include <time.h>

enum { MEMBERS = 64, BATCH = 50, BATCHES = 60 };
enum kind { OPEN, DEPOSIT, SUBMIT, RELEASE, GROUP, RESOLVE };

/* What a call is lent, and what it is asked. */
struct lent {
    uint64_t tables[SNAREVAPOR_TABLES / 8];
    uint8_t counts[2 * MEMBERS], answer[SNAREVAPOR_RESOLVE_ANSWER];
};
struct asked {
    enum kind kind;
    size_t members;
    uint64_t payer, number, payee, amount;
};

static uint8_t balances[8 * MEMBERS], lines[8 * MEMBERS];
static struct lent copies[BATCH];

static uint32_t archive(const struct asked *q, struct lent *l) {
    uint8_t *t = (uint8_t *)l->tables;
    size_t n = sizeof l->tables, lists = 8 * q->members, counts = 2 * q->members;
    switch (q->kind) {
    case OPEN: return snarevapor_open(t, n, q->members, balances, lists, lines, lists, l->answer, sizeof l->answer);
    case DEPOSIT: return snarevapor_deposit(t, n, q->payer, q->amount, l->answer, sizeof l->answer);
    case SUBMIT: return snarevapor_submit(t, n, q->payer, q->number, q->payee, q->amount);
    case RELEASE: return snarevapor_release(t, n, q->payer, l->answer, sizeof l->answer);
    case GROUP: return snarevapor_group(t, n, l->counts, counts, l->answer, sizeof l->answer);
    default: return snarevapor_resolve(t, n, l->counts, counts, l->answer, sizeof l->answer);
    }
}

static uint32_t plain(const struct asked *q, struct lent *l) {
    uint8_t *t = (uint8_t *)l->tables;
    switch (q->kind) {
    case OPEN: return plain_open(t, q->members, balances, lines, l->answer);
    case DEPOSIT: return plain_deposit(t, q->payer, q->amount, l->answer);
    case SUBMIT: return plain_submit(t, q->payer, q->number, q->payee, q->amount);
    case RELEASE: return plain_release(t, q->payer, l->answer);
    case GROUP: return plain_group(t, l->counts, 2 * q->members, l->answer);
    default: return plain_resolve(t, l->counts, 2 * q->members, l->answer);
    }
}

/* The least microseconds of one call in a batch, each on a copy of its own. */
static double least(uint32_t (*call)(const struct asked *, struct lent *), const struct asked *q, const struct lent *l) {
    double best = 1e9;
    for (int round = 0; round < BATCHES; round++) {
        struct timespec a, b;
        for (int i = 0; i < BATCH; i++) copies[i] = *l;
        clock_gettime(CLOCK_MONOTONIC, &a);
        for (int i = 0; i < BATCH; i++) call(q, &copies[i]);
        clock_gettime(CLOCK_MONOTONIC, &b);
        double took = ((double)(b.tv_sec - a.tv_sec) * 1e6 + (double)(b.tv_nsec - a.tv_nsec) / 1e3) / BATCH;
        if (took < best) best = took;
    }
    return best;
}

/* Times one call on this house both ways, and tells it under its name and a number: how many wait there, or how many members it has. */
static void row(const char *name, size_t number, const char *unit, struct asked q, const struct lent *l) {
    static struct lent one, other;
    one = other = *l;
    uint32_t code = archive(&q, &one);
    if (code != plain(&q, &other) || memcmp(&one, &other, sizeof one)) {
        fprintf(stderr, "times: %s differs\n", name);
        exit(1);
    }
    printf("%s, %zu %s\t%.2f\t%.2f\n", name, number, unit, least(archive, &q, l), least(plain, &q, l));
}

static void must(uint32_t code) {
    if (code) exit(1);
}

static void open_house(struct lent *l, size_t members) {
    memset(l, 0, sizeof *l);
    must(plain_open((uint8_t *)l->tables, members, balances, lines, l->answer));
}

static void pay(struct lent *l, uint64_t *last, uint64_t payer, uint64_t payee, uint64_t amount) {
    must(plain_submit((uint8_t *)l->tables, payer, ++last[payer], payee, amount));
}

static void balance(size_t member, int64_t cents) {
    for (int k = 0; k < 8; k++) balances[8 * member + (size_t)k] = (uint8_t)((uint64_t)cents >> 8 * k);
}

/* Numbers that look random and are fixed. */
static uint64_t draw(uint64_t end) {
    static uint64_t state = 20261115;
    uint64_t z = state += 0x9e3779b97f4a7c15u;
    z = (z ^ z >> 30) * 0xbf58476d1ce4e5b9u;
    z = (z ^ z >> 27) * 0x94d049bb133111ebu;
    return (z ^ z >> 31) % end;
}

/* A house of 64 where everyone can pay everything, each payment going to the next member. */
static void rich(struct lent *l, size_t waiting) {
    uint64_t last[MEMBERS + 1] = {0};
    for (size_t m = 0; m < MEMBERS; m++) balance(m, 1000000);
    open_house(l, MEMBERS);
    for (size_t k = 0; k < waiting; k++) pay(l, last, k % MEMBERS + 1, (k + 1) % MEMBERS + 1, 5);
}

/* A house where payments of 1 to 500 go from anyone to anyone, and each member has 0 to 400: some settle and some do not. */
static void typical(struct lent *l, size_t members, size_t waiting) {
    uint64_t last[MEMBERS + 1] = {0};
    for (size_t m = 0; m < members; m++) balance(m, (int64_t)draw(401));
    open_house(l, members);
    for (size_t k = 0; k < waiting;) {
        uint64_t payer = draw(members) + 1, payee = draw(members) + 1;
        if (payer != payee) pay(l, last, payer, payee, draw(500) + 1), k++;
    }
}

int main(void) {
    static struct lent l;
    const size_t waits[] = {0, 1024, 2048}, queues[] = {256, 512, 1024, 1536, 2048}, members[] = {2, 8, 32};
    const size_t all = MEMBERS;
    for (size_t i = 0; i < 3; i++) {
        size_t n = waits[i];
        rich(&l, n);
        row("open", n, "wait", (struct asked){OPEN, all, 0, 0, 0, 0}, &l);
        row("deposit", n, "wait", (struct asked){DEPOSIT, all, 64, 0, 0, 1}, &l);
        row("submit", n, "wait", (struct asked){SUBMIT, all, 64, n / MEMBERS + 1, 1, 5}, &l);
        row("release", n, "wait", (struct asked){RELEASE, all, 64, 0, 0, 0}, &l);
        for (size_t m = 0; m < MEMBERS; m++) l.counts[2 * m] = n > 0;
        row("group of all heads", n, "wait", (struct asked){GROUP, all, 0, 0, 0, 0}, &l);
        row("resolve, all settles", n, "wait", (struct asked){RESOLVE, all, 0, 0, 0, 0}, &l);
    }
    for (size_t i = 0; i < 5; i++) {
        typical(&l, MEMBERS, queues[i]);
        row("typical", queues[i], "payments", (struct asked){RESOLVE, all, 0, 0, 0, 0}, &l);
    }
    for (size_t i = 0; i < 3; i++) {
        typical(&l, members[i], 2048);
        row("typical, 2048 payments", members[i], "members", (struct asked){RESOLVE, members[i], 0, 0, 0, 0}, &l);
    }
    return 0;
}

/* The sheet of a day file as a plain C program writes it: the yardstick of tests/figures, written for speed and proved by nobody. A queue
   is a list through the places, with its head at hand; nothing is allocated; lines are read where they lie, and the sheet is written out
   before more input is awaited. */
#include <stdint.h>
#include <string.h>
#include <unistd.h>

enum { MEMBERS = 64, PLACES = 2048, LINE = 400, CHUNK = 1 << 16, NONE = 0xffff };
static const int64_t MOST_AMOUNT = 1000000000000, MOST_MONEY = 1000000000000000;
static const long MOST_LINES = 1000000;

struct place {
    int64_t amount;
    uint16_t next, before;
    uint8_t payee;
};

static struct place places[PLACES];
static uint16_t unused = NONE;
static int64_t balance[MEMBERS], line[MEMBERS], money;
static uint32_t last[MEMBERS], waits[MEMBERS];
static uint16_t head[MEMBERS], tail[MEMBERS];
static int count, opened, waiting;

static char out[CHUNK + 8192];
static size_t said;

static int flush(void) {
    for (size_t at = 0; at < said;) {
        ssize_t n = write(1, out + at, said - at);
        if (n <= 0) return 0;
        at += (size_t)n;
    }
    said = 0;
    return 1;
}

/* ---- the sheet */

static void word(const char *text, size_t n) {
    memcpy(out + said, text, n);
    said += n;
}

static void number(int64_t n) {
    char digits[20];
    size_t at = sizeof digits;
    uint64_t left = n < 0 ? -(uint64_t)n : (uint64_t)n;
    do {
        digits[--at] = (char)('0' + left % 10);
        left /= 10;
    } while (left);
    if (n < 0) digits[--at] = '-';
    word(digits + at, sizeof digits - at);
}

static void field(int64_t n) {
    out[said++] = '\t';
    number(n);
}

#define SAY(at, text) (number(at), word("\t" text, sizeof text))

static void refuse(long at, int code) {
    SAY(at, "refused");
    field(code);
    out[said++] = '\n';
}

/* ---- the calls: each gives its code */

static int64_t settle(int payer) {
    struct place *p = &places[head[payer]];
    uint16_t at = head[payer];
    head[payer] = p->next;
    if (p->next == NONE) tail[payer] = NONE;
    else places[p->next].before = NONE;
    balance[payer] -= p->amount;
    balance[p->payee] += p->amount;
    p->next = unused;
    unused = at;
    waits[payer]--;
    waiting--;
    return p->amount;
}

static int deposit(int64_t member, int64_t amount) {
    if (member < 1 || member > count) return 2;
    if (amount < 1 || amount > MOST_AMOUNT) return 4;
    if (money + amount > MOST_MONEY) return 7;
    balance[member - 1] += amount;
    money += amount;
    return 0;
}

static int submit(int64_t payer, int64_t n, int64_t payee, int64_t amount) {
    if (payer < 1 || payer > count || payee < 1 || payee > count) return 2;
    if (payer == payee) return 3;
    if (amount < 1 || amount > MOST_AMOUNT) return 4;
    int from = (int)payer - 1;
    if (n != (int64_t)last[from] + 1 || n > UINT32_MAX) return 5;
    if (waiting == PLACES) return 6;
    uint16_t at = unused;
    unused = places[at].next;
    places[at] = (struct place){amount, NONE, tail[from], (uint8_t)(payee - 1)};
    if (tail[from] == NONE) head[from] = at;
    else places[tail[from]].next = at;
    tail[from] = at;
    last[from]++;
    waits[from]++;
    waiting++;
    return 0;
}

static int release(int64_t member, int64_t *n, int64_t *amount) {
    if (member < 1 || member > count) return 2;
    int m = (int)member - 1;
    if (!waits[m]) return 8;
    if (balance[m] + line[m] < places[head[m]].amount) return 9;
    *n = (int64_t)last[m] - waits[m] + 1;
    *amount = settle(m);
    return 0;
}

static int group(const int64_t *counts, int n, int64_t *payments, int64_t *sum) {
    int64_t position[MEMBERS];
    if (n != count) return 10;
    for (int m = 0; m < count; m++)
        if (counts[m] > waits[m]) return 10;
    for (int m = 0; m < count; m++) position[m] = balance[m] + line[m];
    for (int m = 0; m < count; m++) {
        uint16_t at = head[m];
        for (int64_t k = 0; k < counts[m]; k++, at = places[at].next) {
            position[m] -= places[at].amount;
            position[places[at].payee] += places[at].amount;
        }
    }
    for (int m = 0; m < count; m++)
        if (position[m] < 0) return 9;
    *payments = *sum = 0;
    for (int m = 0; m < count; m++)
        for (int64_t k = 0; k < counts[m]; k++, ++*payments) *sum += settle(m);
    return 0;
}

/* The verdict of a resolution: all payments, less the last one of a short member, again and again. */
static int resolve(int64_t *payments, int64_t *sum) {
    int64_t position[MEMBERS];
    uint32_t counts[MEMBERS];
    uint16_t top[MEMBERS];
    int shorts[MEMBERS], n = 0, waited = waiting;
    *payments = *sum = 0;
    for (int m = 0; m < count; m++) position[m] = balance[m] + line[m], counts[m] = waits[m], top[m] = tail[m];
    for (int m = 0; m < count; m++)
        for (uint16_t at = head[m]; at != NONE; at = places[at].next) {
            position[m] -= places[at].amount;
            position[places[at].payee] += places[at].amount;
        }
    for (int m = 0; m < count; m++)
        if (position[m] < 0) shorts[n++] = m;
    while (n) {
        int m = shorts[--n];
        while (position[m] < 0) {
            struct place *p = &places[top[m]];
            int64_t before = position[p->payee];
            top[m] = p->before;
            counts[m]--;
            position[m] += p->amount;
            position[p->payee] = before - p->amount;
            if (before >= 0 && before < p->amount) shorts[n++] = p->payee;
        }
    }
    for (int m = 0; m < count; m++)
        for (; counts[m]; counts[m]--, ++*payments) *sum += settle(m);
    return !waited ? 0 : !waiting ? 1 : *payments ? 2 : 3;
}

/* ---- the lines */

/* The fields behind a kind, up to `most` of them: how many, or -1 where one is no number. Only the field `minus` may be below zero. */
static int fields(const char *at, const char *end, int64_t *to, int most, int minus) {
    int n = 0;
    while (at < end) {
        int below = 0;
        if (*at++ != '\t' || n == most) return -1;
        if (n == minus && at < end && *at == '-') below = 1, at++;
        const char *from = at;
        int64_t value = 0;
        while (at < end && (unsigned)(*at - '0') < 10 && at - from < 18) value = value * 10 + (*at++ - '0');
        if (at == from || (at < end && *at != '\t') || (*from == '0' && (at - from > 1 || below))) return -1;
        to[n++] = below ? -value : value;
    }
    return n;
}

static int is(const char *from, size_t n, const char *kind, size_t length) { return n == length && !memcmp(from, kind, length); }
#define IS(kind) is(from, n, kind, sizeof kind - 1)

/* A line of the opening; 0, or the code that ends the night. */
static int opening(const char *from, size_t n, const char *end, long at) {
    int64_t v[3];
    if (!count) {
        if (!IS("house") || fields(from + n, end, v, 2, -1) != 2 || v[0] != 1) return 12;
        if (v[1] < 1 || v[1] > MEMBERS) return 11;
        count = (int)v[1];
        for (int i = 0; i < PLACES; i++) places[i].next = i + 1 < PLACES ? (uint16_t)(i + 1) : NONE;
        unused = 0;
        return 0;
    }
    if (!IS("member") || fields(from + n, end, v, 3, 1) != 3 || v[0] != opened + 1) return 12;
    head[opened] = tail[opened] = NONE;
    balance[opened] = v[1];
    line[opened++] = v[2];
    if (opened < count) return 0;
    for (int m = 0; m < count; m++) {
        if (line[m] > MOST_AMOUNT || balance[m] < -line[m] || balance[m] > 2 * MOST_MONEY) return 11;
        money += balance[m];
    }
    if (money > MOST_MONEY) return 11;
    SAY(at, "open");
    field(count);
    field(money);
    out[said++] = '\n';
    return 0;
}

/* A line of the night: its code, or -1 after its end. */
static int answered(const char *from, size_t n, const char *end, long at) {
    int64_t v[MEMBERS], a, b;
    int code, k;
    if (IS("pay")) {
        if (fields(from + n, end, v, 4, -1) != 4) return 12;
        if ((code = submit(v[0], v[1], v[2], v[3]))) return code;
        SAY(at, "queued");
        field(v[0]);
        field(v[1]);
    } else if (IS("deposit")) {
        if (fields(from + n, end, v, 2, -1) != 2) return 12;
        if ((code = deposit(v[0], v[1]))) return code;
        SAY(at, "deposited");
        field(v[0]);
        field(balance[v[0] - 1]);
    } else if (IS("release")) {
        if (fields(from + n, end, v, 1, -1) != 1) return 12;
        if ((code = release(v[0], &a, &b))) return code;
        SAY(at, "released");
        field(v[0]);
        field(a);
        field(b);
    } else if (IS("group")) {
        if ((k = fields(from + n, end, v, MEMBERS, -1)) < 1) return 12;
        if ((code = group(v, k, &a, &b))) return code;
        SAY(at, "group");
        field(a);
        field(b);
    } else if (IS("resolve")) {
        if (from + n != end) return 12;
        int verdict = resolve(&a, &b), many = 0, lowest = 0;
        for (int m = count; m--;)
            if (waits[m]) many++, lowest = m + 1;
        SAY(at, "resolve");
        field(verdict);
        field(a);
        field(b);
        field(many);
        field(lowest);
    } else if (IS("end")) {
        if (from + n != end) return 12;
        for (int m = 0; m < count; m++) {
            word("balance", 7);
            field(m + 1);
            field(balance[m]);
            field(waits[m]);
            out[said++] = '\n';
        }
        word("money", 5);
        field(money);
        out[said++] = '\n';
        return -1;
    } else {
        return 12;
    }
    out[said++] = '\n';
    return 0;
}

/* One line, without its line end; whether the night goes on. */
static int next(const char *from, const char *end, long at) {
    const char *tab = end - from > LINE ? NULL : memchr(from, '\t', (size_t)(end - from));
    size_t n = (size_t)((tab ? tab : end) - from);
    int is_open = count && opened == count;
    int code = at > MOST_LINES || end - from > LINE ? 12 : is_open ? answered(from, n, end, at) : opening(from, n, end, at);
    if (code > 0) refuse(at, code);
    return at <= MOST_LINES && code >= 0 && (is_open || !code);
}

int main(void) {
    static char in[CHUNK + LINE + 2];
    size_t held = 0;
    long at = 0;
    for (;;) {
        ssize_t got = read(0, in + held, CHUNK);
        if (got < 0 || !flush()) return 2;
        const char *from = in, *end = in + held + got, *stop;
        if (!got) {
            if (held && !next(in, end, at + 1)) return !flush();
            refuse(0, 12);
            return !flush();
        }
        for (; (stop = memchr(from, '\n', (size_t)(end - from))); from = stop + 1) {
            if (!next(from, stop, ++at)) return !flush();
            if (said > CHUNK && !flush()) return 2;
        }
        /* Of a line that is too long the first 401 bytes are enough. */
        held = (size_t)(end - from) > LINE + 1 ? LINE + 1 : (size_t)(end - from);
        memmove(in, from, held);
        if (!flush()) return 2;
    }
}

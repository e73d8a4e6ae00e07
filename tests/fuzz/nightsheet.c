/* A fuzzer of nightsheet, whose object file is linked here with its `main`, `read` and `write` renamed, and with no word behind its name. Bytes are taken as a day file, or
 * as the numbers of one that is mostly well-formed. Of each it is looked whether
 *   - the sheet is the same however the input comes in pieces, and nothing is said on standard error,
 *   - each line is one that document 01 has, of at most 80 bytes, and line numbers rise,
 *   - the money at the end is the opening's sum plus the accepted deposits, and the sum of the balances,
 *   - the payments that wait at the end are those that were queued and not settled.
 * Which line said what is counted in a table of its own, which guides the fuzzer. */
#include <stdint.h>
#include <stdio.h>
#include <stdlib.h>
#include <string.h>
#include <sys/types.h>

int nightsheet_main(void);
ssize_t nightsheet_read(int from, void *to, size_t most);
ssize_t nightsheet_write(int to, const void *bytes, size_t count);
ssize_t rattle_arg(size_t at, void *to, size_t most);
int rattle_errno(void);
void rattle_set_errno(int number);

enum { DAY = 1 << 18, SHEET = 1 << 20, KINDS = 10 };

static const char *const kinds[KINDS] = {"open", "queued", "deposited", "released", "group", "resolve", "refused", "balance", "money", "?"};
__attribute__((section("__libfuzzer_extra_counters"))) static uint8_t said[KINDS * 64];

static unsigned long seen[KINDS * 64]; /* the same over all runs, told in the end */

static char day[DAY], sheet[SHEET], again[SHEET];
static size_t day_length, day_at, sheet_length;
static const uint8_t *input;
static size_t left;
static unsigned pieces; /* 0: as much as is asked for; else the seed of piece lengths */

static void wrong(const char *what) {
    fprintf(stderr, "fuzz: %s\n-- the day file:\n%.*s\n-- the sheet:\n%.*s\n", what, (int)day_length, day, (int)sheet_length, sheet);
    abort();
}

ssize_t nightsheet_read(int from, void *to, size_t most) {
    size_t n = day_length - day_at;
    if (from != 0) wrong("something else than standard input is read");
    if (pieces) {
        pieces = pieces * 1103515245u + 12345u;
        if (most > 1 + pieces / 65536 % 97) most = 1 + pieces / 65536 % 97;
    }
    if (n > most) n = most;
    memcpy(to, day + day_at, n);
    day_at += n;
    return (ssize_t)n;
}

ssize_t nightsheet_write(int to, const void *bytes, size_t count) {
    if (to != 1) wrong("something is said on standard error");
    if (sheet_length + count > SHEET) wrong("the sheet is too long");
    memcpy(sheet + sheet_length, bytes, count);
    sheet_length += count;
    return (ssize_t)count;
}

/* What the program asks of the system else: a word behind its name, of which there is none, and the number of the last error. */
static int error;

ssize_t rattle_arg(size_t at, void *to, size_t most) {
    (void)at, (void)to, (void)most;
    return -1;
}

int rattle_errno(void) { return error; }

void rattle_set_errno(int number) { error = number; }

/* The sheet of the day, the input coming in pieces by that seed. */
static void run(unsigned seed) {
    pieces = seed;
    day_at = sheet_length = 0;
    nightsheet_main();
}

/* ---- making a day file */

static uint8_t byte(void) {
    if (left == 0) return 0;
    left--;
    return *input++;
}

/* A number: mostly small, at times at a limit. */
static unsigned long long number(void) {
    static const unsigned long long limits[] = {0,          64,         65,          2048,          65535,          65536,
                                                4294967295, 4294967296, 999999999999, 1000000000000, 1000000000001, 1000000000000000};
    uint8_t b = byte();
    return b < 220 ? b % 20 : limits[b % 12];
}

static void put(const char *text, size_t length) {
    if (day_length + length > DAY) return;
    memcpy(day + day_length, text, length);
    day_length += length;
}

static void word(const char *text) { put(text, strlen(text)); }

static void field(unsigned long long n) {
    char text[32];
    sprintf(text, "\t%llu", n);
    word(text);
}

static void line(const char *kind, int fields) {
    word(kind);
    while (fields-- > 0) field(number());
    word("\n");
}

/* A day file that is mostly well-formed. */
static void script(void) {
    unsigned count = byte() % 66, last[66] = {0};
    word("house\t1");
    field(count);
    word("\n");
    for (unsigned i = 1; i <= count; i++) {
        word("member");
        field(i);
        if (byte() % 8 == 7) {
            word("\t-1");
            field(number());
        } else {
            field(number());
            field(byte() % 4 ? 0 : number());
        }
        word("\n");
    }
    while (left > 0) {
        unsigned payer = count ? 1 + byte() % count : 1, many = 1;
        switch (byte() % 12) {
        case 0: line("deposit", 2); break;
        case 1: line("release", 1); break;
        case 2: line("resolve", 0); break;
        case 3:
            word("group");
            for (unsigned i = byte() % 16 ? count : byte() % 70; i > 0; i--) field(byte() % 4 ? 0 : byte() % 4);
            word("\n");
            break;
        case 4: line("pay", 4); break;
        case 5: {
            size_t n = byte() % 8;
            for (; n > 0; n--) day_length < DAY ? (void)(day[day_length++] = (char)byte()) : (void)0;
            break;
        }
        case 6: line(byte() % 2 ? "house" : "member", 3); break;
        case 7: if (byte() % 16 == 0) line("end", 0); break;
        case 8: many = 8 * byte(); /* fall through */
        default: {
            unsigned payee = count ? 1 + byte() % count : 1;
            unsigned long long amount = number();
            for (; many > 0; many--) {
                word("pay");
                field(payer);
                field(++last[payer]);
                field(payee);
                field(amount);
                word("\n");
            }
        }
        }
    }
    if (byte() % 2 == 0) word("end\n");
}

/* ---- judging its sheet */

/* The field k of line n of the day, counted from 0 and 1. */
static long long asked(long long n, int k) {
    const char *at = day, *end = day + day_length;
    while (--n > 0) at = (const char *)memchr(at, '\n', (size_t)(end - at)) + 1;
    while (k-- > 0) at = (const char *)memchr(at, '\t', (size_t)(end - at)) + 1;
    return atoll(at);
}

static void judge(void) {
    long long number = 0, money = 0, balances = 0, waiting = 0, waits = 0;
    for (char *at = sheet, *end = sheet + sheet_length; at < end;) {
        char *stop = memchr(at, '\n', (size_t)(end - at)), kind[16] = "", text[81];
        long long n = -1, v[5] = {0};
        int k, which, of = 0;
        if (!stop) wrong("a line without an end");
        if (stop - at > 79) wrong("a line of more than 80 bytes");
        memcpy(text, at, (size_t)(stop - at));
        text[stop - at] = 0;
        at = stop + 1;
        if (text[0] >= '0' && text[0] <= '9')
            k = sscanf(text, "%lld\t%15[a-z]\t%lld\t%lld\t%lld\t%lld\t%lld", &n, kind, v, v + 1, v + 2, v + 3, v + 4) - 2;
        else
            k = sscanf(text, "%15[a-z]\t%lld\t%lld\t%lld", kind, v, v + 1, v + 2) - 1;
        while (of < KINDS - 1 && strcmp(kinds[of], kind)) of++;
        which = of * 64 + (of == 5 || of == 6 ? (int)v[0] % 64 : 0); /* a verdict or a code */
        said[which]++;
        seen[which]++;
        if (n > 0 && n <= number) wrong("line numbers do not rise");
        if (n > 0) number = n;
        switch (of) {
        case 0: money = v[1]; if (k != 2) wrong("open"); break;
        case 1: waiting++; if (k != 2) wrong("queued"); break;
        case 2: money += asked(n, 2); if (k != 2) wrong("deposited"); break;
        case 3: waiting--; if (k != 3) wrong("released"); break;
        case 4: waiting -= v[0]; if (k != 2) wrong("group"); break;
        case 5: waiting -= v[1]; if (k != 5 || v[0] > 3) wrong("resolve"); break;
        case 6: if (k != 1 || v[0] < 2 || v[0] > 12) wrong("a code"); break;
        case 7: balances += v[1]; waits += v[2]; if (k != 3 || n != -1) wrong("balance"); break;
        case 8:
            if (k != 1 || n != -1 || at != end) wrong("money");
            if (v[0] != money) wrong("the money is not the opening's and the deposits");
            if (v[0] != balances) wrong("the money is not the sum of the balances");
            if (waits != waiting) wrong("another number of payments waits");
            break;
        default: wrong("a line that no sheet has");
        }
    }
}

static void tell(void) {
    for (int i = 0; i < KINDS * 64; i++)
        if (seen[i]) fprintf(stderr, "said: %s %d, %lu times\n", kinds[i / 64], i % 64, seen[i]);
}

int LLVMFuzzerInitialize(int *count, char ***words) {
    (void)count, (void)words;
    return atexit(tell);
}

int LLVMFuzzerTestOneInput(const uint8_t *data, size_t size) {
    size_t length;
    input = data;
    left = size;
    day_length = 0;
    if (byte() % 4 == 0) put((const char *)input, left);
    else script();
    run(0);
    length = sheet_length;
    memcpy(again, sheet, length);
    judge();
    run(1 + (unsigned)size);
    if (sheet_length != length || memcmp(sheet, again, length)) wrong("the sheet is another where the input comes in pieces");
    return 0;
}

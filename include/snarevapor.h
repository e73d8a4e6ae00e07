/*
 * Snarevapor: a settlement queue for one house, as a static library. The archive is for x86-64 Linux, the header for C99 and C++11.
 *
 * A house has members, each with a balance in cents and a credit line. Members queue payments to each other. A payment is settled alone
 * (release), in a set that you propose (group), or in the largest allowed set (resolve): a count for each member, taken from the head of
 * its queue without a gap, that leaves each member's balance + line at 0 or above. What is booked is final.
 *
 * The library keeps nothing between calls, allocates nothing, opens nothing and has no threads: the whole house stands in bytes that you
 * lend on each call, the tables. Every call ends with a code. 0 is accepted; any other is a refusal, and a refused call writes nothing that
 * you lent, not even equal bytes, so that the tables may be mapped from a file. Each call is proved to do what is said here, for any bytes.
 *
 *
 * HOW TO START
 *
 * This is examples/small.c:
 *
 *     // Two members, three payments, one resolution: prints what was settled and what still waits.
 *     #include <inttypes.h>
 *     #include <snarevapor.h>
 *     #include <stdio.h>
 *
 *     static uint8_t tables[SNAREVAPOR_TABLES];
 *
 *     // Says why a call was refused, if it was.
 *     static int refused(uint32_t code) {
 *         if (code != SNAREVAPOR_ACCEPTED) printf("refused with %" PRIu32 ": %s\n", code, snarevapor_word(code));
 *         return code != SNAREVAPOR_ACCEPTED;
 *     }
 *
 *     int main(void) {
 *         uint8_t balances[2 * SNAREVAPOR_BALANCE_BYTES] = {0}, lines[2 * SNAREVAPOR_LINE_BYTES] = {0}, sum[SNAREVAPOR_OPEN_ANSWER];
 *         uint8_t counts[2 * SNAREVAPOR_COUNT_BYTES], told[SNAREVAPOR_RESOLVE_ANSWER];
 *
 *         snarevapor_put(balances, SNAREVAPOR_BALANCE_BYTES, 10); // member 1 has 10, member 2 has 0, and neither has a line
 *         if (refused(snarevapor_open(tables, sizeof tables, 2, balances, sizeof balances, lines, sizeof lines, sum, sizeof sum))) return 1;
 *         refused(snarevapor_submit(tables, sizeof tables, 1, 1, 2, 30)); // payment 1 of member 1: 30 to member 2
 *         refused(snarevapor_submit(tables, sizeof tables, 2, 1, 1, 20)); // payment 1 of member 2: 20 to member 1
 *         refused(snarevapor_submit(tables, sizeof tables, 1, 2, 2, 5));  // payment 2 of member 1: 5 to member 2
 *         refused(snarevapor_submit(tables, sizeof tables, 1, 2, 2, 5));  // the same once more is refused, its number is out of turn
 *
 *         if (refused(snarevapor_resolve(tables, sizeof tables, counts, sizeof counts, told, sizeof told))) return 1;
 *         printf("%s\n", snarevapor_verdict_word(snarevapor_part(told, SNAREVAPOR_RESOLVE_VERDICT)));
 *         printf("settled: %" PRIu64 " payments, ", snarevapor_part(told, SNAREVAPOR_RESOLVE_PAYMENTS));
 *         printf("%" PRId64 " in all\n", snarevapor_signed_part(told, SNAREVAPOR_RESOLVE_SUM));
 *         for (uint64_t member = 1; member <= snarevapor_members(tables); member++)
 *             printf("member %" PRIu64 " has %" PRId64 "\n", member, snarevapor_balance(tables, member));
 *         struct snarevapor_walk walk = snarevapor_walk_begin(tables);
 *         while (snarevapor_walk_next(&walk))
 *             printf("waiting: payment %" PRIu64 " of member %" PRIu64 ", %" PRIu64 " to member %" PRIu64 "\n", walk.number, walk.payer,
 *                    walk.amount, walk.payee);
 *         return 0;
 *     }
 *
 * Installed by `host/install PREFIX` it is built by `cc small.c $(pkg-config --cflags --libs snarevapor)`; in the project's own folder
 * `host/build` writes the archive, and `cc -I include examples/small.c target/staticlib/libsnarevapor.a` builds it. It prints
 *
 *     refused with 5: number out of turn
 *     some of what waits is settled
 *     settled: 2 payments, 50 in all
 *     member 1 has 0
 *     member 2 has 10
 *     waiting: payment 2 of member 1, 5 to member 2
 *
 *
 * WHAT YOU OWE
 *
 * - A pointer with the length behind it is a slice: that many bytes are yours, can be read, and written where the pointer is not
 *   const, for as long as the call lasts. The library keeps no pointer after it. No pointer is NULL, also where its length is 0.
 * - The slices of one call do not overlap, and no other thread touches them during it. Two houses may be worked on at once.
 * - The bytes of the tables stay as the call before left them. You may store them and lend them again later, at another address, to a
 *   library of the same SNAREVAPOR_VERSION. Tables that hold no house are refused with SNAREVAPOR_STATE, so a damaged copy is not worked
 *   on, unless the damage is itself a house.
 * - Nothing else. Lengths, numbers and bytes may be anything; what is wrong has a code. A call needs up to 32 KiB of stack.
 *
 *
 * BYTES
 *
 * Every number stands with its lowest byte first; a signed one in two's complement. No alignment is needed. snarevapor_get and
 * snarevapor_put read and write them.
 *
 * - Tables are at least SNAREVAPOR_TABLES bytes. Longer is fine: what lies past them is not read or written. What stands where has names
 *   below (.._AT), and a function that reads it. You may read the tables; leave the writing to the calls.
 * - Lists are as long as the house has members, to the byte: balances and lines for open, counts for group and resolve; member 1 first.
 * - Answers are written from byte 0 on, part after part, and only where the call is accepted. Bytes behind the parts are not touched. An
 *   answer with less room than its parts is refused with SNAREVAPOR_STATE, before any other code.
 * - A set of members is one number, in which member i counts as 2^(i - 1).
 */
#ifndef SNAREVAPOR_H
#define SNAREVAPOR_H

#include <stddef.h>
#include <stdint.h>

#ifdef __cplusplus
extern "C" {
#endif

/* Changes with every change of an answer or of the tables. Tables that another version left are of another form. */
#define SNAREVAPOR_VERSION 1

/* ---- Limits. Amounts, lines and balances are in cents. ---- */

#define SNAREVAPOR_MEMBERS 64                                  /* members of a house, at least 1 */
#define SNAREVAPOR_PLACES 2048                                 /* payments that can wait, over all members */
#define SNAREVAPOR_MOST_AMOUNT INT64_C(1000000000000)          /* of a payment or a deposit, at least 1 */
#define SNAREVAPOR_MOST_LINE INT64_C(1000000000000)            /* credit line of a member, at least 0 */
#define SNAREVAPOR_MOST_BALANCE INT64_C(2000000000000000)      /* opening balance of a member, at least minus its line */
#define SNAREVAPOR_MOST_SUM INT64_C(1000000000000000)          /* sum of all balances */
#define SNAREVAPOR_MOST_NUMBER INT64_C(4294967295)             /* number of a payment, at least 1 */
#define SNAREVAPOR_MOST_COUNT 65535                            /* count that a list can hold */

/* ---- Sizes, in bytes ---- */

#define SNAREVAPOR_TABLES 22528        /* the tables, at least */
#define SNAREVAPOR_BALANCE_BYTES 8     /* a balance in the tables or in a list, signed */
#define SNAREVAPOR_LINE_BYTES 8        /* a line in the tables or in a list, signed */
#define SNAREVAPOR_COUNTER_BYTES 4     /* a counter in the tables */
#define SNAREVAPOR_PAYMENT_BYTES 8     /* a waiting payment in the tables */
#define SNAREVAPOR_COUNT_BYTES 2       /* a count in a list */
#define SNAREVAPOR_PART_BYTES 8        /* a part of an answer */
#define SNAREVAPOR_OPEN_ANSWER 8       /* the answer of each call, at least; submit has none */
#define SNAREVAPOR_DEPOSIT_ANSWER 8
#define SNAREVAPOR_RELEASE_ANSWER 16
#define SNAREVAPOR_GROUP_ANSWER 16
#define SNAREVAPOR_RESOLVE_ANSWER 48

/* ---- What stands where in the tables, in bytes from their begin. Each row has room for all members; what is not named is 0. ---- */

#define SNAREVAPOR_BALANCES_AT 0       /* balance of member 1, 2, .. */
#define SNAREVAPOR_LINES_AT 512        /* line of member 1, 2, .. */
#define SNAREVAPOR_MEMBERS_AT 4096     /* counter: members */
#define SNAREVAPOR_WAITING_AT 4100     /* counter: payments that wait */
#define SNAREVAPOR_LAST_AT 4352        /* counters: last accepted number of member 1, 2, .. */
#define SNAREVAPOR_SETTLED_AT 4608     /* counters: payments settled of member 1, 2, .. */
#define SNAREVAPOR_PAYMENTS_AT 6144    /* waiting payments without a gap, those of one payer in its queue's order */

/*
 * A waiting payment is one number: amount * SNAREVAPOR_AMOUNT_UNIT + (payer - 1) * SNAREVAPOR_PAYER_UNIT + (payee - 1). Its own number is
 * not stored: it is the payer's settled payments + 1 for the head, + 2 for the next, and so on.
 */
#define SNAREVAPOR_AMOUNT_UNIT 65536
#define SNAREVAPOR_PAYER_UNIT 64

/* The parts of the answers, in their order. */
enum { SNAREVAPOR_OPEN_SUM };                                 /* the sum of balances, signed */
enum { SNAREVAPOR_DEPOSIT_BALANCE };                          /* the new balance, signed */
enum { SNAREVAPOR_RELEASE_NUMBER, SNAREVAPOR_RELEASE_AMOUNT }; /* of the payment that was settled */
enum { SNAREVAPOR_GROUP_PAYMENTS, SNAREVAPOR_GROUP_SUM };      /* how many were settled, and the sum of their amounts */
enum {
    SNAREVAPOR_RESOLVE_VERDICT,  /* one of the verdicts below */
    SNAREVAPOR_RESOLVE_PAYMENTS, /* how many were settled */
    SNAREVAPOR_RESOLVE_SUM,      /* the sum of their amounts */
    SNAREVAPOR_RESOLVE_SET,      /* the set of members with payments still waiting */
    SNAREVAPOR_RESOLVE_MEMBERS,  /* how many members that are */
    SNAREVAPOR_RESOLVE_LOWEST    /* the lowest of them, 0 if none */
};

/* ---- Codes and verdicts ---- */

/* The codes. A call answers the first, in the order that stands at it, whose condition holds. */
enum {
    SNAREVAPOR_ACCEPTED = 0, /* done */
    SNAREVAPOR_STATE = 1,    /* the tables or the answer are too short, or (not for open) the tables hold no house */
    SNAREVAPOR_MEMBER = 2,   /* a member number outside 1 to the house's members */
    SNAREVAPOR_SAME = 3,     /* payer and payee are the same */
    SNAREVAPOR_AMOUNT = 4,   /* an amount outside 1 to SNAREVAPOR_MOST_AMOUNT */
    SNAREVAPOR_NUMBER = 5,   /* the number is not the payer's last accepted + 1, or is above SNAREVAPOR_MOST_NUMBER */
    SNAREVAPOR_FULL = 6,     /* SNAREVAPOR_PLACES payments wait */
    SNAREVAPOR_MONEY = 7,    /* the deposit would take the sum of balances above SNAREVAPOR_MOST_SUM */
    SNAREVAPOR_NOTHING = 8,  /* a release, and nothing waits there */
    SNAREVAPOR_COVER = 9,    /* a release or a group that is not covered */
    SNAREVAPOR_COUNTS = 10,  /* the list of counts is not as long as the house has members, or (group) a count is above what waits */
    SNAREVAPOR_OPENING = 11  /* a bad opening: see snarevapor_open */
};

/* The verdicts of a resolution, on the queue as it was before. */
enum {
    SNAREVAPOR_EMPTY = 0,     /* nothing waited */
    SNAREVAPOR_ALL = 1,       /* all was settled */
    SNAREVAPOR_SOME = 2,      /* some was settled */
    SNAREVAPOR_DEADLOCKED = 3 /* payments waited, and no allowed set but the empty one exists */
};

/* A code in words, for a person. */
static inline const char *snarevapor_word(uint32_t code) {
    static const char *const words[] = {
        "accepted", "no house in the tables, or a slice is too short", "no such member", "payer and payee are the same",
        "amount out of range", "number out of turn", "no room for another payment", "too much money", "nothing waits there", "not covered",
        "wrong counts", "bad opening"};
    return code < sizeof words / sizeof words[0] ? words[code] : "no code of this house";
}

/* A verdict in words, for a person. */
static inline const char *snarevapor_verdict_word(uint64_t verdict) {
    static const char *const words[] = {"nothing waits", "all that waits is settled", "some of what waits is settled",
                                        "deadlock, payments wait and none can be settled"};
    return verdict < sizeof words / sizeof words[0] ? words[verdict] : "no verdict of this house";
}

/* ---- The calls ---- */

/*
 * Opens a house of `count` members with these balances and lines. The tables may hold anything before, and are overwritten up to
 * SNAREVAPOR_TABLES: nothing waits, and no number was accepted yet.
 * Answer: the sum of balances (signed).
 * Codes: SNAREVAPOR_STATE if the tables or the answer are too short; SNAREVAPOR_OPENING if the count is outside 1 to SNAREVAPOR_MEMBERS,
 * if the balances or the lines are not as long as `count` says, if a line is outside 0 to SNAREVAPOR_MOST_LINE, if a balance is below minus
 * its line or above SNAREVAPOR_MOST_BALANCE, or if the sum of balances is above SNAREVAPOR_MOST_SUM.
 */
uint32_t snarevapor_open(uint8_t *tables, size_t tables_length, uint64_t count, const uint8_t *balances, size_t balances_length,
                         const uint8_t *lines, size_t lines_length, uint8_t *answer, size_t answer_length);

/*
 * Adds `amount` to a member's balance. Nothing is settled by it, and nothing else in the tables changes.
 * Answer: the new balance (signed).
 * Codes: SNAREVAPOR_STATE, _MEMBER, _AMOUNT, _MONEY.
 */
uint32_t snarevapor_deposit(uint8_t *tables, size_t tables_length, uint64_t member, uint64_t amount, uint8_t *answer,
                            size_t answer_length);

/*
 * Adds a payment at the tail of its payer's queue. `number` is the payer's own: 1 for its first, and then always the last accepted
 * + 1, so that a submission that is repeated is refused. It settles nothing, and no balance changes.
 * Answer: none; the code says all.
 * Codes: SNAREVAPOR_STATE, _MEMBER (payer or payee), _SAME, _AMOUNT, _NUMBER, _FULL.
 */
uint32_t snarevapor_submit(uint8_t *tables, size_t tables_length, uint64_t payer, uint64_t number, uint64_t payee, uint64_t amount);

/*
 * Settles the head of a member's queue, if the member's balance + line reach its amount: both balances change, the payment leaves.
 * Answer: the payment's number, its amount.
 * Codes: SNAREVAPOR_STATE, _MEMBER, _NOTHING, _COVER.
 */
uint32_t snarevapor_release(uint8_t *tables, size_t tables_length, uint64_t member, uint8_t *answer, size_t answer_length);

/*
 * Settles at once so many payments from the head of each queue as `counts` says, if that set is allowed. All counts 0 is accepted and
 * settles nothing.
 * Answer: how many payments were settled, their sum.
 * Codes: SNAREVAPOR_STATE; SNAREVAPOR_COUNTS if there is not one count for each member, or one is above what waits; SNAREVAPOR_COVER if
 * the set is not allowed.
 */
uint32_t snarevapor_group(uint8_t *tables, size_t tables_length, const uint8_t *counts, size_t counts_length, uint8_t *answer,
                          size_t answer_length);

/*
 * Settles the largest allowed set: every allowed set lies inside it. Its counts are written over `counts`, whatever stood there.
 * Answer: the verdict, how many payments were settled, their sum, the set of members with payments still waiting, how many members
 * that are, and the lowest of them (0 if none).
 * Codes: SNAREVAPOR_STATE; SNAREVAPOR_COUNTS if there is not room for one count for each member, to the byte.
 */
uint32_t snarevapor_resolve(uint8_t *tables, size_t tables_length, uint8_t *counts, size_t counts_length, uint8_t *answer,
                            size_t answer_length);

/* ---- To read and write bytes ---- */

/* The number in so many bytes (at most 8), unsigned. */
static inline uint64_t snarevapor_get(const uint8_t *bytes, size_t width) {
    uint64_t number = 0;
    while (width-- > 0) number = number * 256 + bytes[width];
    return number;
}

/* The signed number in 8 bytes: a balance, a line, a sum of balances. */
static inline int64_t snarevapor_get_signed(const uint8_t *bytes) {
    uint64_t number = snarevapor_get(bytes, 8);
    return number <= INT64_MAX ? (int64_t)number : -(int64_t)(UINT64_MAX - number) - 1;
}

/* Writes a number into so many bytes; a signed one as (uint64_t)number. What does not fit is left out. */
static inline void snarevapor_put(uint8_t *bytes, size_t width, uint64_t number) {
    for (size_t i = 0; i < width; i++, number /= 256) bytes[i] = (uint8_t)(number % 256);
}

/* A part of an answer. */
static inline uint64_t snarevapor_part(const uint8_t *answer, size_t part) {
    return snarevapor_get(answer + part * SNAREVAPOR_PART_BYTES, SNAREVAPOR_PART_BYTES);
}

static inline int64_t snarevapor_signed_part(const uint8_t *answer, size_t part) {
    return snarevapor_get_signed(answer + part * SNAREVAPOR_PART_BYTES);
}

/* ---- To read the tables. They hold a house: the last call on them was accepted, or refused with another code than SNAREVAPOR_STATE. A
 *      member is 1 to snarevapor_members(tables). ---- */

static inline uint64_t snarevapor_members(const uint8_t *tables) {
    return snarevapor_get(tables + SNAREVAPOR_MEMBERS_AT, SNAREVAPOR_COUNTER_BYTES);
}

/* How many payments wait, over all members. */
static inline uint64_t snarevapor_waiting(const uint8_t *tables) {
    return snarevapor_get(tables + SNAREVAPOR_WAITING_AT, SNAREVAPOR_COUNTER_BYTES);
}

static inline int64_t snarevapor_balance(const uint8_t *tables, uint64_t member) {
    return snarevapor_get_signed(tables + SNAREVAPOR_BALANCES_AT + (member - 1) * SNAREVAPOR_BALANCE_BYTES);
}

static inline int64_t snarevapor_line(const uint8_t *tables, uint64_t member) {
    return snarevapor_get_signed(tables + SNAREVAPOR_LINES_AT + (member - 1) * SNAREVAPOR_LINE_BYTES);
}

/* The number that the member's next payment must have; one above SNAREVAPOR_MOST_NUMBER if it has none left. */
static inline uint64_t snarevapor_next_number(const uint8_t *tables, uint64_t member) {
    return snarevapor_get(tables + SNAREVAPOR_LAST_AT + (member - 1) * SNAREVAPOR_COUNTER_BYTES, SNAREVAPOR_COUNTER_BYTES) + 1;
}

/* How many of the member's payments were settled. The next one has the number of its queue's head. */
static inline uint64_t snarevapor_settled(const uint8_t *tables, uint64_t member) {
    return snarevapor_get(tables + SNAREVAPOR_SETTLED_AT + (member - 1) * SNAREVAPOR_COUNTER_BYTES, SNAREVAPOR_COUNTER_BYTES);
}

/*
 * The waiting payments one after the other, those of one payer from the head of its queue on:
 *
 *     struct snarevapor_walk walk = snarevapor_walk_begin(tables);
 *     while (snarevapor_walk_next(&walk)) .. walk.payer, walk.number, walk.payee, walk.amount ..
 *
 * Make no call on the tables before the walk is done.
 */
struct snarevapor_walk {
    uint64_t payer, number, payee, amount; /* the payment */
    const uint8_t *tables;                 /* how far the walk is */
    size_t place;
    uint32_t passed[SNAREVAPOR_MEMBERS];
};

static inline struct snarevapor_walk snarevapor_walk_begin(const uint8_t *tables) {
    struct snarevapor_walk walk;
    walk.payer = walk.number = walk.payee = walk.amount = 0;
    walk.tables = tables;
    walk.place = 0;
    for (size_t i = 0; i < SNAREVAPOR_MEMBERS; i++) walk.passed[i] = 0;
    return walk;
}

/* Goes to the next payment: 1, or 0 if there is none. */
static inline int snarevapor_walk_next(struct snarevapor_walk *walk) {
    uint64_t word;
    if (walk->place >= SNAREVAPOR_PLACES) return 0;
    word = snarevapor_get(walk->tables + SNAREVAPOR_PAYMENTS_AT + walk->place * SNAREVAPOR_PAYMENT_BYTES, SNAREVAPOR_PAYMENT_BYTES);
    if (word == 0) return 0;
    walk->place++;
    walk->amount = word / SNAREVAPOR_AMOUNT_UNIT;
    walk->payer = word / SNAREVAPOR_PAYER_UNIT % SNAREVAPOR_MEMBERS + 1;
    walk->payee = word % SNAREVAPOR_PAYER_UNIT + 1;
    walk->number = snarevapor_settled(walk->tables, walk->payer) + ++walk->passed[walk->payer - 1];
    return 1;
}

#ifdef __cplusplus
}
#endif

#endif

/* What the parts of the floor program share: what a line is, what the floor holds, and which file does what. */
#ifndef FLOOR_H
#define FLOOR_H

#include "snarevapor.h"
#include <stdio.h>
#include <sys/types.h>

/* The day file: the most bytes of a line without its end, and the most lines; and the bytes that hold a line with its end as a string. */
enum { LINE_BYTES = 400, NIGHT_LINES = 1000000, LINE_ROOM = LINE_BYTES + 2 };

/* What a line leads to: the night goes on; it has ended; its opening was refused; the input ended first; or its file fails. */
enum outcome { GO_ON, ENDED, REFUSED, LEFT, FAILED };

/* What a person says when asked. */
enum said { NO, YES, NOTHING };

/* The kinds of lines. Those up to END are the day file's own. BLANK has no word, BAD is no line. */
enum kind { HOUSE, MEMBER, PAY, DEPOSIT, RELEASE, GROUP, RESOLVE, END, SHOW, HELP, BLANK, BAD };

/* A line: its kind and its numbers. A bad one says why, and is about the kind that its first word names, or BLANK if it is too long; help
 * is about a kind too. */
struct line {
    enum kind kind, about;
    int given;
    int64_t values[SNAREVAPOR_MEMBERS];
    const char *why;
};

/* The night's file, NULL without one: where its next line goes, how many lines stand before that, and whether the last lacks its end. */
struct night {
    const char *path;
    FILE *file;
    off_t end;
    long lines;
    int lacks_end;
};

/* The opening so far: how many members, how many of them have a line, the set of those that are to be typed again, and who has most. */
struct opening {
    uint64_t count, typed, wrong, largest;
    int64_t balances[SNAREVAPOR_MEMBERS], lines[SNAREVAPOR_MEMBERS];
};

/* The floor: the house, its opening, its file; whether lines are typed, whether it asks, whether it replays; and which line it is at. */
struct floor {
    uint8_t tables[SNAREVAPOR_TABLES];
    int is_open;
    struct opening opening;
    struct night night;
    int at_terminal, asks, replays;
    long line_number;
};

/* What a call answered; of a booking also the counts that it settles. */
struct reply {
    uint32_t code;
    uint64_t verdict, payments, number, payee;
    int64_t balance, sum;
    uint8_t counts[SNAREVAPOR_MEMBERS * SNAREVAPOR_COUNT_BYTES];
};

/* What goes out of and comes in to each member: how many payments, and their sum. Member m stands at m. */
struct flow {
    uint64_t out[SNAREVAPOR_MEMBERS + 1], in[SNAREVAPOR_MEMBERS + 1];
    int64_t out_sum[SNAREVAPOR_MEMBERS + 1], in_sum[SNAREVAPOR_MEMBERS + 1];
};

/* line.c: lines from bytes, bytes from lines, and help on them. */
int read_line(FILE *from, char *text, off_t *bytes, int *lacks_end);
struct line typed_line(char *text, int length);
struct line filed_line(char *text, int length);
void write_line(const struct line *line, char *text);
const char *line_form(enum kind kind);
void help(enum kind about);

/* night.c: the night's file. All but night_is_full answer 0, or -1 after they said on standard error what failed. */
int night_open(struct night *night, const char *path);
int night_next(struct night *night, char *text, int *length);
int night_add(struct night *night, const struct line *line);
int night_cut(struct night *night, off_t end, long lines);
int night_complete(struct night *night);
int night_is_full(const struct night *night);

/* desk.c: what is typed, and what is asked. */
int desk_read(struct floor *floor, char *text);
enum said desk_ask(struct floor *floor);

/* opening.c: house and member lines, until the house is open. */
enum outcome opening_line(struct floor *floor, const struct line *line);
uint64_t opening_next(const struct opening *opening);

/* calls.c: the lines of the day, as they are typed, and again as they stand in the file. */
enum outcome call_line(struct floor *floor, struct line *line);
uint32_t call_again(struct floor *floor, const struct line *line);

/* show.c: what stands in the tables, for the eye. */
const char *money(int64_t cents);
struct flow flow_of(const uint8_t *tables, const uint8_t *counts);
struct snarevapor_walk head_of(const uint8_t *tables, uint64_t member);
void show_house(const uint8_t *tables);
void show_member(const uint8_t *tables, uint64_t member);
void show_booking(const uint8_t *before, const uint8_t *after, const struct reply *reply, int resolves);

/* refuse.c: refusals, each with what would be right. */
void refused(const struct floor *floor, const char *why);
enum outcome refuse_words(const struct floor *floor, const char *why);
enum outcome refuse_line(const struct floor *floor, const struct line *line);
void refuse_member(const struct floor *floor);
void refuse_call(const struct floor *floor, const struct line *line, const struct reply *reply);

#endif

/* Lines: which kinds there are, how one is read from what was typed or from the day file, and how it is written into that file. */
#define _POSIX_C_SOURCE 200809L
#include "floor.h"
#include <inttypes.h>
#include <stdlib.h>
#include <string.h>

/* The kinds, in their order, with the least and the most numbers; how they are typed, what they do, and an example. */
static const struct {
    const char *name;
    int least, most;
    const char *form, *does, *example;
} kinds[BLANK] = {
    {"house", 2, 2, "house 1 MEMBERS", "begins a house; then a member line for each, in order",
     "house 1 3              a house of 3 members, in edition 1\n"},
    {"member", 3, 3, "member MEMBER BALANCE LINE", "its balance and credit line, in cents like every amount",
     "member 2 -500 10000    member 2 has -5.00, and a line of 100.00\n"},
    {"pay", 3, 4, "pay PAYER [NUMBER] PAYEE AMOUNT", "queues a payment, with the payer's next number",
     "pay 1 2 3000           member 1 pays 30.00 to member 2\n"
     "pay 1 7 2 3000         the same, if 7 is the next number of member 1\n"},
    {"deposit", 2, 2, "deposit MEMBER AMOUNT", "adds to a balance",
     "deposit 1 80000        member 1 has 800.00 more\n"},
    {"release", 1, 1, "release MEMBER", "books the head of its queue alone, if it is covered",
     "release 2              the head of member 2's queue\n"},
    {"group", 1, SNAREVAPOR_MEMBERS, "group COUNT COUNT ..", "books so many from each head at once; a count for each member",
     "group 1 0 2            one payment of member 1, none of member 2, two of member 3\n"},
    {"resolve", 0, 0, "resolve", "books the largest set that can be settled",
     "resolve                shows that set first\n"},
    {"end", 0, 0, "end", "ends the night; nothing can follow. Ctrl-D asks for it too",
     "end                    shows the balances that are left\n"},
    {"show", 0, 1, "show [MEMBER]", "balances, lines and queues, or the queue of one member",
     "show                   all members\n"
     "show 2                 each payment that waits at member 2\n"},
    {"help", 0, 1, "help [LINE]", "these lines, or an example of one",
     "help pay               an example of a pay line\n"}};

enum { WORDS = SNAREVAPOR_MEMBERS + 2, DIGITS = 18 };

const char *line_form(enum kind kind) { return kinds[kind].form; }

/* All kinds, or one with its example. */
void help(enum kind about) {
    if (about < BLANK) printf("%s\n  %s\n%s", kinds[about].form, kinds[about].does, kinds[about].example);
    for (int kind = 0; about >= BLANK && kind < BLANK; kind++) printf("%-33s%s\n", kinds[kind].form, kinds[kind].does);
}

/* Reads a line without its end: its length, LINE_BYTES + 1 if it is longer than may be, -1 if there is none. `bytes` grows by what was
 * read. A byte 0 is read as `?`, which stands in no line. */
int read_line(FILE *from, char *text, off_t *bytes, int *lacks_end) {
    int length = 0, byte;
    while ((byte = getc(from)) != EOF && byte != '\n') {
        ++*bytes;
        if (length <= LINE_BYTES) text[length++] = byte == 0 ? '?' : (char)byte;
    }
    text[length] = 0;
    *lacks_end = byte == EOF;
    *bytes += byte == '\n';
    return *lacks_end && length == 0 ? -1 : length;
}

static struct line bad_line(enum kind about, const char *why) {
    struct line line = {BAD, about, 0, {0}, why};
    return line;
}

/* A number as the day file has it: 1 to 18 digits without a leading 0; `-` only where it is allowed, and not before 0. */
static int read_number(const char *word, int may_be_negative, int64_t *value) {
    int minus = may_be_negative && word[0] == '-';
    size_t length = strlen(word + minus);
    if (length < 1 || length > DIGITS || strspn(word + minus, "0123456789") != length) return 0;
    if (word[minus] == '0' && (length > 1 || minus)) return 0;
    *value = strtoll(word, NULL, 10);
    return 1;
}

static enum kind kind_of(const char *word) {
    for (int kind = 0; kind < BLANK; kind++)
        if (strcmp(word, kinds[kind].name) == 0) return (enum kind)kind;
    return BAD;
}

static struct line line_of(char **words, int given) {
    struct line line = {kind_of(words[0]), BAD, given - 1, {0}, NULL};
    if (line.kind == BAD) return bad_line(BAD, "not a line that I know.");
    if (line.given < kinds[line.kind].least || line.given > kinds[line.kind].most) return bad_line(line.kind, "too few or too many words.");
    if (line.kind == HELP) {
        if (line.given > 0) line.about = kind_of(words[1]);
        return line;
    }
    for (int i = 0; i < line.given; i++)
        if (!read_number(words[i + 1], line.kind == MEMBER && i == 1, &line.values[i]))
            return bad_line(line.kind, "not a number. Only digits, at most 18, no leading 0; amounts are in cents: 123456 is 1,234.56.");
    return line;
}

/* A line as it is typed: any spaces or tabs between the words. */
struct line typed_line(char *text, int length) {
    struct line blank = {BLANK, BAD, 0, {0}, NULL};
    char *words[WORDS];
    int given = 0;
    if (length > LINE_BYTES) return bad_line(BLANK, "the line is too long.");
    for (char *word = strtok(text, " \t\r"); word && given < WORDS; word = strtok(NULL, " \t\r")) words[given++] = word;
    return given == 0 ? blank : line_of(words, given);
}

/* A line as the day file has it: one tab between the words, and nothing else. */
struct line filed_line(char *text, int length) {
    char *words[WORDS];
    int given = 0;
    if (length > LINE_BYTES) return bad_line(BAD, "the line is too long.");
    for (char *tab = text; tab && given < WORDS; text = tab + 1) {
        words[given++] = text;
        if ((tab = strchr(text, '\t'))) *tab = 0;
        else break;
    }
    struct line line = line_of(words, given);
    if (line.kind == PAY && line.given != kinds[PAY].most) return bad_line(PAY, "too few words.");
    return line.kind == SHOW || line.kind == HELP ? bad_line(BAD, "not a line of the day file.") : line;
}

/* The line as the day file has it, with its end. */
void write_line(const struct line *line, char *text) {
    int at = snprintf(text, LINE_ROOM, "%s", kinds[line->kind].name);
    for (int i = 0; i < line->given; i++) at += snprintf(text + at, (size_t)(LINE_ROOM - at), "\t%" PRId64, line->values[i]);
    snprintf(text + at, (size_t)(LINE_ROOM - at), "\n");
}

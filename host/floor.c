/*
 * The floor at night: opens a house, takes its lines one by one, shows balances and queues, and asks before anything is booked.
 *
 *     floor [--ask | --yes] [NIGHT.day]
 *
 * With a file the night is that file: what stands there is replayed, then lines come from standard input, and each that is understood is
 * added to it before it is acted upon. docs/FLOOR.md shows a night. This is a host that can be copied: all that is booked, counted or
 * refused is so by the library; what is added up here is shown and nothing more. floor.h says which file does what.
 */
#define _POSIX_C_SOURCE 200809L
#include "floor.h"
#include <inttypes.h>
#include <signal.h>
#include <string.h>
#include <unistd.h>

static const char usage[] =
    "usage: floor [--ask | --yes] [NIGHT.day]\n"
    "  NIGHT.day  the night's file: replayed if it is there, then each line that is understood is added to it\n"
    "  --ask      ask before each booking and the end, also when lines come from a file or a pipe\n"
    "  --yes      do not ask, also at a terminal\n"
    "  --help     this text, and the lines that can be typed\n"
    "Status: 0 the night ended, 1 it did not, 2 these words are wrong or a file cannot be read or written.\n";

/* ---- A line ---- */

/* Ends the night, if nobody says no. Without an answer the night stays as it is. */
static enum outcome end_line(struct floor *floor, const struct line *line) {
    uint64_t waiting = snarevapor_waiting(floor->tables);
    if (floor->asks) {
        if (waiting == 0) printf("End the night?");
        else printf("End the night, with %" PRIu64 " payment%s waiting?", waiting, waiting == 1 ? "" : "s");
        enum said said = desk_ask(floor);
        if (said != YES) return said == NO ? GO_ON : LEFT;
    }
    if (night_add(&floor->night, line) != 0) return FAILED;
    show_house(floor->tables);
    if (floor->night.file) printf("the night has ended; nightsheet < %s prints its sheet\n", floor->night.path);
    return ENDED;
}

static void show_line(const struct floor *floor, const struct line *line) {
    uint64_t member = (uint64_t)line->values[0];
    if (line->given == 0) show_house(floor->tables);
    else if (member >= 1 && member <= snarevapor_members(floor->tables)) show_member(floor->tables, member);
    else refuse_member(floor);
}

/* A line that is typed. */
static enum outcome take_line(struct floor *floor, struct line line) {
    if (line.kind == BLANK) return GO_ON;
    if (line.kind == HELP) return help(line.about), GO_ON;
    if (line.kind == BAD) return refuse_line(floor, &line);
    if (!floor->is_open) return opening_line(floor, &line);
    switch (line.kind) {
    case HOUSE: return refuse_words(floor, "a house is open already. It stays until end.");
    case MEMBER: return refuse_words(floor, "the house is open already, its members are fixed.");
    case SHOW: return show_line(floor, &line), GO_ON;
    case END: return end_line(floor, &line);
    default: return call_line(floor, &line);
    }
}

/* ---- The night ---- */

/* A line that stands in the file. One that is bad is passed over, as nightsheet does, but not in the opening. */
static enum outcome replay_line(struct floor *floor, const struct line *line, long *refusals) {
    if (!floor->is_open) return line->kind == BAD ? refuse_line(floor, line) : opening_line(floor, line);
    if (line->kind == END) return ENDED;
    if (line->kind == BAD || line->kind == HOUSE || line->kind == MEMBER || call_again(floor, line) != SNAREVAPOR_ACCEPTED) ++*refusals;
    return GO_ON;
}

static void tell_replay(const struct floor *floor, enum outcome outcome, long refusals) {
    const struct night *night = &floor->night;
    if (night->lines == 0) printf("%s: a new night\n", night->path);
    else printf("%s: %ld line%s, %ld refused; ", night->path, night->lines, night->lines == 1 ? "" : "s", refusals);
    if (outcome == ENDED) printf("the night has ended\n");
    else if (floor->is_open) printf("the night goes on\n");
    else if (night->lines > 0) printf("member %" PRIu64 " is next\n", opening_next(&floor->opening));
    if (floor->is_open) show_house(floor->tables);
}

/* Takes the lines that stand in the file, up to its end or the night's. */
static enum outcome replay(struct floor *floor) {
    char text[LINE_ROOM];
    int length = 0;
    long refusals = 0;
    struct night *night = &floor->night;
    enum outcome outcome = GO_ON;
    floor->replays = 1;
    while (outcome == GO_ON) {
        if (night_next(night, text, &length) != 0) return FAILED;
        if (length < 0 || night->lines > NIGHT_LINES) break;
        struct line line = filed_line(text, length);
        floor->line_number = night->lines;
        outcome = replay_line(floor, &line, &refusals);
    }
    floor->replays = 0, floor->line_number = 0;
    if (outcome == REFUSED) return printf("%s: nightsheet stops there too. Mend the file, or name another\n", night->path), REFUSED;
    tell_replay(floor, outcome, refusals);
    if (outcome == ENDED) return ENDED;
    if (night->lines >= NIGHT_LINES) return printf("%s: no line has room, not even end\n", night->path), REFUSED;
    return night_complete(night) == 0 ? GO_ON : FAILED;
}

/* The end of the input. At a terminal it asks as `end` does. */
static enum outcome input_ended(struct floor *floor) {
    struct line end = {END, BAD, 0, {0}, NULL};
    if (floor->at_terminal) printf("\n");
    return floor->at_terminal && floor->asks && floor->is_open ? end_line(floor, &end) : LEFT;
}

static void prompt(const struct floor *floor) {
    if (!floor->at_terminal) return;
    if (!floor->is_open && floor->opening.count > 0) printf("member %" PRIu64 " ", opening_next(&floor->opening));
    printf("> ");
}

/* Takes lines from standard input until the night ends or the input does. */
static enum outcome take_lines(struct floor *floor) {
    char text[LINE_ROOM];
    enum outcome outcome = GO_ON;
    while (outcome == GO_ON) {
        prompt(floor);
        int length = desk_read(floor, text);
        outcome = length < 0 ? input_ended(floor) : take_line(floor, typed_line(text, length));
    }
    if (outcome == LEFT && floor->night.file) printf("the night has not ended; floor %s goes on with it\n", floor->night.path);
    else if (outcome == LEFT) printf("the input stopped before end\n");
    return outcome;
}

/* ---- The program ---- */

static int misused(void) {
    fputs(usage, stderr);
    return 2;
}

int main(int words, char **word) {
    static struct floor floor;
    const char *path = NULL;
    int yes = 0, ask = 0;
    enum outcome outcome = GO_ON;
    for (int i = 1; i < words; i++) {
        if (strcmp(word[i], "--help") == 0) return fputs(usage, stdout), help(BAD), 0;
        if (strcmp(word[i], "--yes") == 0) yes = 1;
        else if (strcmp(word[i], "--ask") == 0) ask = 1;
        else if (word[i][0] == '-' || path) return misused();
        else path = word[i];
    }
    if (yes && ask) return misused();
    signal(SIGXFSZ, SIG_IGN); /* a file that may not grow is told like any that cannot be written */
    if (path) outcome = night_open(&floor.night, path) == 0 ? replay(&floor) : FAILED;
    floor.at_terminal = isatty(STDIN_FILENO);
    floor.asks = ask || (floor.at_terminal && !yes);
    if (outcome == GO_ON) outcome = take_lines(&floor);
    if (fflush(stdout) != 0 || ferror(stdin)) return perror("floor"), 2;
    return outcome == ENDED ? 0 : outcome == FAILED ? 2 : 1;
}

/* The desk: reads what is typed, and asks. */
#define _POSIX_C_SOURCE 200809L
#include "floor.h"
#include <string.h>

/* Reads a line as read_line does. At a terminal the end of the input (Ctrl-D) may be followed by more. Where a line is booked for good, a
 * last one without its end may have been cut short on its way, and is not taken. */
int desk_read(struct floor *floor, char *text) {
    off_t bytes = 0;
    int lacks_end;
    if (fflush(stdout) != 0) return -1;
    int length = read_line(stdin, text, &bytes, &lacks_end);
    if (floor->at_terminal && feof(stdin)) clearerr(stdin);
    if (length > 0 && lacks_end && (floor->at_terminal || floor->night.file)) {
        printf("%sthe last line was cut short, and is not taken\n", floor->at_terminal ? "\n" : "");
        return -1;
    }
    if (length >= 0) floor->line_number++;
    return length;
}

/* Asks until the answer is y or n, or the input ends. */
enum said desk_ask(struct floor *floor) {
    char answer[LINE_ROOM];
    for (;;) {
        printf(" (y/n) ");
        int length = desk_read(floor, answer);
        if (length < 0 || !floor->at_terminal) printf("\n");
        if (length < 0) return NOTHING;
        if (strcmp(answer, "y") == 0 || strcmp(answer, "yes") == 0) return YES;
        if (strcmp(answer, "n") == 0 || strcmp(answer, "no") == 0) return NO;
        printf("Type y or n.");
    }
}

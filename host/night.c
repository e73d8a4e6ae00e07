/*
 * The night's file: a day file that grows by a line before each call. Once the house is open it only grows.
 *
 * A line is on the disk before its call is made, and its first byte is written last, after the others are on the disk. Until then a byte 0
 * stands there, which begins no line. So a crash in the middle of a write leaves something that neither nightsheet nor the floor takes for
 * a line; the floor cuts it off when it opens the file. A last line that merely lacks its end is a whole line, as in any day file.
 */
#define _POSIX_C_SOURCE 200809L
#include "floor.h"
#include <errno.h>
#include <fcntl.h>
#include <libgen.h>
#include <stdlib.h>
#include <string.h>
#include <sys/stat.h>
#include <unistd.h>

static int fails(const char *path, const char *why) {
    fflush(stdout);
    fprintf(stderr, "floor: %s: %s\n", path, why);
    return -1;
}

/* The name of a new file is on the disk once its folder is. */
static int sync_folder(const char *path) {
    char *copy = strdup(path);
    int folder = copy ? open(dirname(copy), O_RDONLY | O_DIRECTORY) : -1;
    int result = folder < 0 ? -1 : fsync(folder);
    if (folder >= 0) close(folder);
    free(copy);
    return result;
}

/* Opens the file, makes it if there is none, and locks it, so that no second floor works on it. */
int night_open(struct night *night, const char *path) {
    struct flock lock = {.l_type = F_WRLCK, .l_whence = SEEK_SET};
    struct stat status;
    int file = open(path, O_RDWR | O_CREAT, 0666);
    if (file < 0 || fstat(file, &status) != 0) return fails(path, strerror(errno));
    if (!S_ISREG(status.st_mode)) return fails(path, "not a plain file");
    if (fcntl(file, F_SETLK, &lock) != 0)
        return fails(path, errno == EACCES || errno == EAGAIN ? "another floor works on it" : strerror(errno));
    if (sync_folder(path) != 0) return fails(path, strerror(errno));
    night->path = path, night->file = fdopen(file, "r");
    return night->file ? 0 : fails(path, strerror(errno));
}

/* Says so if the file is no longer as the floor left it: somebody else wrote to it, or removed it. */
static int is_foreign(const struct night *night) {
    struct stat status;
    if (fstat(fileno(night->file), &status) == 0 && status.st_nlink > 0 && status.st_size == night->end) return 0;
    fails(night->path, "somebody else changed or removed it");
    return 1;
}

/* The next byte of the file, which stays to be read. */
static int peek(FILE *file) { return ungetc(getc(file), file); }

/* Reads the next line; its length is -1 at the end. What a crash left of a last line is cut off. */
int night_next(struct night *night, char *text, int *length) {
    off_t start = night->end;
    int first = peek(night->file), lacks_end;
    *length = read_line(night->file, text, &night->end, &lacks_end);
    if (ferror(night->file)) return fails(night->path, strerror(errno));
    if (*length < 0) return 0;
    if (first == 0 && peek(night->file) == EOF) {
        *length = -1;
        printf("%s: its last line was cut short before it was answered, and is dropped\n", night->path);
        return night_cut(night, start, night->lines);
    }
    night->lines++, night->lacks_end = lacks_end;
    return 0;
}

/* Puts bytes at a place of the file, and waits until they are on the disk. */
static int put_down(int file, const char *bytes, size_t length, off_t at) {
    while (length > 0) {
        ssize_t put = pwrite(file, bytes, length, at);
        if (put < 0 && errno == EINTR) continue;
        if (put <= 0) return -1;
        bytes += put, length -= (size_t)put, at += put;
    }
    return fsync(file);
}

/* Adds a line. If that fails nothing is to be booked for it. */
int night_add(struct night *night, const struct line *line) {
    static const char stops[] = "nothing was booked for this line, and the night stops here";
    char text[LINE_ROOM];
    if (!night->file) return 0;
    if (is_foreign(night)) return fails(night->path, stops);
    int file = fileno(night->file);
    write_line(line, text);
    size_t length = strlen(text);
    if (put_down(file, text + 1, length - 1, night->end + 1) != 0 || put_down(file, text, 1, night->end) != 0) {
        fails(night->path, strerror(errno));
        if (ftruncate(file, night->end) != 0) fails(night->path, "the line may stand in the file");
        return fails(night->path, stops);
    }
    night->end += (off_t)length, night->lines++;
    return 0;
}

/* Cuts the file off behind so many lines, which end there. */
int night_cut(struct night *night, off_t end, long lines) {
    if (!night->file || end == night->end) return 0;
    if (is_foreign(night)) return -1;
    night->end = end, night->lines = lines, night->lacks_end = 0;
    return ftruncate(fileno(night->file), end) == 0 && fsync(fileno(night->file)) == 0 ? 0 : fails(night->path, strerror(errno));
}

/* Gives the last line its end, if it lacks it, so that the next does not stick to it. */
int night_complete(struct night *night) {
    if (!night->lacks_end) return 0;
    if (put_down(fileno(night->file), "\n", 1, night->end) != 0) return fails(night->path, strerror(errno));
    night->end++, night->lacks_end = 0;
    return 0;
}

/* The file has room for one line at most, which must be the end. */
int night_is_full(const struct night *night) { return night->file && night->lines >= NIGHT_LINES - 1; }

/* A pump sequencer's question to a picture: should the pump of the well run?
 *
 *     sequencer [FILE]
 *
 * The picture's bytes are hexadecimal, in FILE or on standard input; lines that begin with # are skipped. The
 * decision is printed with its reason. Where the picture does not say enough to decide, the pump runs: a pump that
 * runs dry stops by its own guard, and a well that overflows does not. */
#include <ctype.h>
#include <inttypes.h>
#include <stdio.h>
#include <stdlib.h>

#include "dingaruho.h"

/* The points of this well. */
enum {
    LEVEL = 7,      /* water level, in centimetres above the floor */
    START_MARK = 8, /* high-water mark: the pump starts at this level */
    STOP_MARK = 9,  /* low-water mark: the pump stops at this level */
    RUNNING = 20,   /* 0 while the pump stands, else it runs */
};

/* One byte more than the largest picture has: what is longer is read up to here and refused for its length. */
static uint8_t picture[24584];

/* Reads hexadecimal bytes and gives their number, or -1 if something else stands in the file. */
static int read_hex(FILE *file)
{
    int size = 0, at_line_start = 1, c;
    while ((c = fgetc(file)) != EOF) {
        if (c == '#' && at_line_start) {
            while (c != '\n' && c != EOF)
                c = fgetc(file);
        } else if (!isspace(c)) {
            char digits[3] = {(char)c, (char)fgetc(file), 0};
            if (!isxdigit((unsigned char)digits[0]) || !isxdigit((unsigned char)digits[1]))
                return -1;
            if (size < (int)sizeof picture)
                picture[size++] = (uint8_t)strtoul(digits, NULL, 16);
        }
        at_line_start = c == '\n';
    }
    return ferror(file) ? -1 : size;
}

static void run_to_be_safe(void)
{
    printf("safe decision: run pump\n");
}

/* Asks for a value that the decision needs. Gives 0 after saying why, if there is none. */
static int ask(int size, uint16_t point, const char *name, int64_t *value)
{
    *value = dingaruho_ask(picture, (size_t)size, point);
    if (*value < DINGARUHO_NOT_THERE)
        return 1;
    if (*value == DINGARUHO_NOT_THERE)
        printf("point %u, the %s, is not in the picture\n", (unsigned)point, name);
    else
        printf("the picture is refused for reason %" PRId64 ", at bit %" PRId64 "\n", *value - DINGARUHO_NOT_THERE,
               dingaruho_refused_at(picture, (size_t)size));
    return 0;
}

static void decide(int size)
{
    int64_t level, start, stop, running;
    if (!ask(size, LEVEL, "level", &level) || !ask(size, START_MARK, "start mark", &start) ||
        !ask(size, STOP_MARK, "stop mark", &stop) || !ask(size, RUNNING, "pump state", &running)) {
        run_to_be_safe();
        return;
    }
    if (stop >= start) {
        printf("the stop mark %" PRId64 " is not below the start mark %" PRId64 "\n", stop, start);
        run_to_be_safe();
    } else if (level >= start) {
        printf("level %" PRId64 " is at or above the start mark %" PRId64 ": %s\n", level, start,
               running ? "keep pump running" : "start pump");
    } else if (level <= stop) {
        printf("level %" PRId64 " is at or below the stop mark %" PRId64 ": %s\n", level, stop,
               running ? "stop pump" : "keep pump stopped");
    } else {
        printf("level %" PRId64 " is between the stop mark %" PRId64 " and the start mark %" PRId64 ": %s\n", level, stop, start,
               running ? "keep pump running" : "keep pump stopped");
    }
}

int main(int argc, char **argv)
{
    if (argc > 2) {
        fprintf(stderr, "usage: sequencer [FILE]\n");
        return 2;
    }
    FILE *file = argc == 2 ? fopen(argv[1], "r") : stdin;
    int size = file ? read_hex(file) : -1;
    if (size < 0) {
        printf("no hexadecimal bytes can be read from %s\n", argc == 2 ? argv[1] : "standard input");
        run_to_be_safe();
        return 1;
    }
    decide(size);
    return 0;
}

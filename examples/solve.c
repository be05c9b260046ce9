/* Solves the plan in a file, or from standard input where none is named, and prints it as the program `timetable` does; where
 * there is no timetable, a last line says by how many ticks the bounds of the chain fall short.
 *
 *     cc -Iinclude -o solve examples/solve.c target/staticlib/libsolver.a
 *     ./solve examples/update.plan
 *     ./solve earliest examples/update.plan
 *
 * The times are the latest; where the first word is `earliest`, the earliest. A file of that name can be named `./earliest`.
 *
 * The exit status is 0 where the plan is solved, 1 where there is no timetable, 2 where the text is refused, and 3 where the
 * text could not be read or the outcome not be written whole; standard error then says why. Of a text that could not be read
 * to its end nothing is printed. */
#include <inttypes.h>
#include <stdio.h>
#include <string.h>

#include "timetable.h"

enum { SOLVED, NO_TIMETABLE, REFUSED, FAILED };

/* One byte more than is allowed, so that a longer text is seen to be too long; and a 0 at the end. */
static char text[TIMETABLE_TEXT + 2];

/* The line of a record: line 1 is `events`. */
static const char *line_of(size_t record) {
    const char *line = text;
    for (size_t feeds = 0; feeds <= record; line++) {
        feeds += *line == '\n';
    }
    return line;
}

/* A wish has a level for each distance from its lo on. Its ends are the first and the last distance whose level is not 0. */
static void wish_ends(const char *line, int *lo, int *hi) {
    int first = 0, tabs = 0, any = 0;
    sscanf(line, "wish %*d %*d %d", &first);
    for (; *line != '\n'; line++) {
        /* The levels begin behind the fourth tab. */
        if (*line == '\t' && ++tabs >= 4 && line[1] != '0') {
            *hi = first + tabs - 4;
            *lo = any ? *lo : *hi;
            any = 1;
        }
    }
}

static void print_step(unsigned code) {
    int from = 0, to = 0, lo = 0, hi = 0;
    if (code >= TIMETABLE_HORIZON_CODE) {
        to = (int)(code - TIMETABLE_HORIZON_CODE) / 2;
        sscanf(text, "events %*d %d", &hi);
    } else {
        const char *line = line_of(code / 2);
        sscanf(line, "%*s %d %d", &from, &to);
        if (*line == 'r') {
            sscanf(line, "rule %*d %*d %d %d", &lo, &hi);
        } else {
            wish_ends(line, &lo, &hi);
        }
    }
    if (code % 2 == 0) {
        printf("step\t%d\t%d\t%d\t%u\n", from, to, hi, code);
    } else {
        printf("step\t%d\t%d\t%d\t%u\n", to, from, -lo, code);
    }
}

static void print_solved(const int64_t *times, const uint8_t *levels, size_t wishes) {
    int events = 0;
    sscanf(text, "events %d", &events);
    printf("solved\t%d\t%zu\n", events, wishes);
    for (int event = 0; event < events; event++) {
        printf("at\t%d\t%" PRId64 "\n", event, times[event]);
    }
    size_t wish = 0;
    for (size_t record = 0; wish < wishes; record++) {
        if (*line_of(record) == 'w') {
            printf("level\t%zu\t%d\n", record, levels[wish++]);
        }
    }
}

/* Solves the text, with the earliest times or the latest, and prints its outcome. */
static int solve(size_t length, int earliest) {
    int64_t times[TIMETABLE_TIMES];
    uint8_t levels[TIMETABLE_LEVELS];
    uint16_t chain[TIMETABLE_CHAIN];
    size_t place = 0;
    uint8_t number = (earliest ? timetable_solve_earliest : timetable_solve)(
        (const uint8_t *)text, length, times, TIMETABLE_TIMES, levels, TIMETABLE_LEVELS, chain, TIMETABLE_CHAIN, &place);
    if (number == TIMETABLE_SOLVED) {
        print_solved(times, levels, place);
        return SOLVED;
    }
    if (number == TIMETABLE_NONE) {
        printf("none\t%zu\n", place);
        for (size_t step = 0; step < place; step++) {
            print_step(chain[step]);
        }
        uint64_t ticks = timetable_ticks_short((const uint8_t *)text, length, chain, place);
        printf("%" PRIu64 " %s short\n", ticks, ticks == 1 ? "tick" : "ticks");
        return NO_TIMETABLE;
    }
    printf("refused\t%d\t%zu\n", number, place);
    return REFUSED;
}

/* Says what could not be read or written, and why. */
static int failed(const char *name) {
    perror(name);
    return FAILED;
}

int main(int count, char **words) {
    int earliest = count > 1 && strcmp(words[1], "earliest") == 0;
    int named = count > 1 + earliest;
    const char *name = named ? words[1 + earliest] : "standard input";
    FILE *file = named ? fopen(name, "rb") : stdin;
    if (file == NULL) {
        return failed(name);
    }
    /* A short count comes at the end of the text, but also where a read fails: only `ferror` tells. */
    size_t length = fread(text, 1, TIMETABLE_TEXT + 1, file);
    if (ferror(file)) {
        return failed(name);
    }
    int status = solve(length, earliest);
    if (fflush(stdout) != 0 || ferror(stdout) || fclose(stdout) != 0) {
        return failed("standard output");
    }
    return status;
}

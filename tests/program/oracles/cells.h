/* What the C programs of this folder share: cells as `fhpgas run` prints them, read into a byte each and printed again, and a clock. */
#ifndef CELLS_H
#define CELLS_H
#include <stdint.h>
#include <stdio.h>
#include <stdlib.h>
#include <string.h>
#include <time.h>

enum { DIRECTIONS = 6, MOST_SIDE = 65536, SOLID = 0xff };

/* A state has bit i for a particle that moves in direction i, counted counterclockwise from east. */
struct cells {
    int width, height;
    long generation;
    unsigned char *states; /* row by row from the top; SOLID at a solid cell */
};

__attribute__((noreturn)) static void stop(const char *fault) {
    fprintf(stderr, "%s\n", fault);
    exit(1);
}

/* zeros, on a line of the cache of their own */
static void *zeros(size_t bytes) {
    void *found = NULL;
    if (posix_memalign(&found, 128, bytes ? bytes : 1)) stop("memory refused");
    return memset(found, 0, bytes);
}

static unsigned char *row_of_states(const struct cells *cells, int y) { return cells->states + (size_t)y * (size_t)cells->width; }

static int digit(char c) { return c <= '9' ? c - '0' : c - 'a' + 10; }

static unsigned char state_of(const char *text) {
    if (text[0] == '#') return SOLID;
    return text[0] == '.' ? 0 : (unsigned char)(16 * digit(text[0]) + digit(text[1]));
}

static char line[2 * MOST_SIDE + 64];

/* The cells on standard input. Their text is one that fhpgas printed, and is not checked. */
static struct cells read_cells(void) {
    struct cells cells = {0, 0, 0, NULL};
    long particles;
    if (!fgets(line, sizeof line, stdin) || sscanf(line, "generation %ld particles %ld", &cells.generation, &particles) != 2)
        stop("standard input is no lattice that fhpgas printed");
    while (cells.height < MOST_SIDE && fgets(line, sizeof line, stdin)) {
        cells.width = (int)strcspn(line, "\n") / 2;
        cells.states = realloc(cells.states, (size_t)(cells.height + 1) * (size_t)cells.width);
        if (!cells.states) stop("memory refused");
        unsigned char *row = row_of_states(&cells, cells.height++);
        for (int x = 0; x < cells.width; x++) row[x] = state_of(line + 2 * x);
    }
    if (!cells.width) stop("standard input has no row");
    return cells;
}

static long particles_in(const struct cells *cells) {
    long particles = 0;
    for (size_t i = 0; i < (size_t)cells->width * (size_t)cells->height; i++)
        if (cells->states[i] != SOLID) particles += __builtin_popcount(cells->states[i]);
    return particles;
}

/* Prints the cells as fhpgas does, and on standard error the seconds that the generations took. */
static int print_cells(const struct cells *cells, double seconds) {
    static const char digits[] = "0123456789abcdef";
    fprintf(stderr, "%.6f\n", seconds);
    printf("generation %ld particles %ld\n", cells->generation, particles_in(cells));
    for (int y = 0; y < cells->height; y++) {
        const unsigned char *row = row_of_states(cells, y);
        for (int x = 0; x < cells->width; x++) {
            line[2 * x] = row[x] == SOLID ? '#' : row[x] ? digits[row[x] / 16] : '.';
            line[2 * x + 1] = row[x] == SOLID ? '#' : row[x] ? digits[row[x] % 16] : '.';
        }
        line[2 * cells->width] = '\n';
        fwrite(line, 1, 2 * (size_t)cells->width + 1, stdout);
    }
    return fflush(stdout) ? 1 : 0;
}

static double seconds_now(void) {
    struct timespec now;
    clock_gettime(CLOCK_MONOTONIC, &now);
    return (double)now.tv_sec + 1e-9 * (double)now.tv_nsec;
}

/* Which way head-on pairs turn: to the left, to the right, or by bits of a seed. */
struct chirality {
    int left, seeded;
    uint64_t seed;
};

/* of the word `left`, `right` or a seed; left without one */
static struct chirality chirality_of(const char *word) {
    struct chirality found = {!word || !strcmp(word, "left"), 0, 0};
    if (found.left || !strcmp(word, "right")) return found;
    found.seeded = 1, found.seed = strtoull(word, NULL, 10);
    return found;
}
#endif

/* The three gases in plain C as one would write them in an afternoon, to compare the speed and the answers of fhpgas with: a byte a cell, a
   table of collisions, two lattices, one thread. It reads cells as `fhpgas run` prints them, computes G generations and prints the cells; on
   standard error the seconds that the generations took. CHIRALITY is left, right or a seed.
   Usage: bytes G [CHIRALITY [GAS]] < CELLS */
#include "cells.h"
#include "key_stream.h"

enum { MOST_DIRECTIONS = 7, RESTING = 0x40 };
#define FOR_EACH_GAS static inline __attribute__((always_inline)) /* so that the loops over directions are those of a gas */

/* the column and the row that the particle of a direction goes to, in even rows and in odd ones, and the direction opposite to it */
struct gas {
    const char *name;
    int directions, columns[2][MOST_DIRECTIONS], rows[MOST_DIRECTIONS], opposite[MOST_DIRECTIONS];
};
static const struct gas fhp1 = {"fhp1", 6, {{1, 0, -1, -1, -1, 0}, {1, 1, 0, -1, 0, 1}}, {0, -1, -1, 0, 1, 1}, {3, 4, 5, 0, 1, 2}};
static const struct gas fhp_rest = {"fhp-rest", 7, {{1, 0, -1, -1, -1, 0, 0}, {1, 1, 0, -1, 0, 1, 0}}, {0, -1, -1, 0, 1, 1, 0}, {3, 4, 5, 0, 1, 2, 6}};
static const struct gas hpp = {"hpp", 4, {{1, 0, -1, 0}, {1, 0, -1, 0}}, {0, -1, 0, 1}, {2, 3, 0, 1}};
static unsigned char collisions[2][1 << MOST_DIRECTIONS]; /* of pairs that turn right, and left */

static void collide_to(int from, int right, int left) { collisions[0][from] = (unsigned char)right, collisions[1][from] = (unsigned char)left; }

static int bit(int direction) { return 1 << direction % 6; }

/* Pairs that meet head on turn, triples turn about, and both do so beside a particle at rest. A particle that meets one at rest parts from
   it with another, 60 degrees to either side, and two such meet again. */
static void make_collisions(const struct gas *gas) {
    for (int state = 0; state < 1 << gas->directions; state++) collide_to(state, state, state);
    if (gas == &hpp) {
        collide_to(0x05, 0x0a, 0x0a), collide_to(0x0a, 0x05, 0x05);
        return;
    }
    for (int rest = 0; rest < 1 << gas->directions; rest += RESTING) {
        for (int i = 0; i < 3; i++)
            collide_to(rest | bit(i) | bit(i + 3), rest | bit(i + 2) | bit(i + 5), rest | bit(i + 1) | bit(i + 4));
        collide_to(rest | 0x15, rest | 0x2a, rest | 0x2a), collide_to(rest | 0x2a, rest | 0x15, rest | 0x15);
    }
    for (int i = 0; i < 6 && gas == &fhp_rest; i++) {
        int one = RESTING | bit(i), two = bit(i + 1) | bit(i + 5);
        collide_to(one, two, two), collide_to(two, one, one);
    }
}

static void collide(struct cells *cells, struct chirality chirality, struct key_stream *key) {
    if (chirality.seeded) start_stream(key, (uint64_t)cells->generation, 0);
    for (int y = 0; y < cells->height; y++) {
        unsigned char *row = row_of_states(cells, y);
        const RowBits *bits = chirality.seeded ? next_row_bits(key, (cells->width + 31) / 32) : NULL;
        for (int x = 0; x < cells->width; x++)
            if (row[x] != SOLID) row[x] = collisions[bits ? bits[x / 64] >> x % 64 & 1 : (RowBits)chirality.left][row[x]];
    }
}

/* A cell's next state. Each particle comes from the cell opposite to where it goes, or is the cell's own, sent back by a solid cell. */
FOR_EACH_GAS unsigned char streamed(const struct gas *gas, const struct cells *cells, int x, int y) {
    unsigned char own = row_of_states(cells, y)[x], next = 0;
    if (own == SOLID) return SOLID;
    for (int i = 0; i < gas->directions; i++) {
        int back = gas->opposite[i], from_x = x + gas->columns[y % 2][back], from_y = y + gas->rows[back];
        if (from_x < 0) from_x = cells->width - 1;
        if (from_x >= cells->width) from_x = 0;
        unsigned char from = from_y < 0 || from_y >= cells->height ? SOLID : row_of_states(cells, from_y)[from_x];
        next |= (unsigned char)(from == SOLID ? (own >> back & 1) << i : from & 1 << i);
    }
    return next;
}

FOR_EACH_GAS void compute(const struct gas *gas, struct cells *cells, long generations, struct chirality chirality) {
    struct key_stream *key = new_key_stream(chirality.seed);
    unsigned char *next = zeros((size_t)cells->width * (size_t)cells->height);
    for (long g = 0; g < generations; g++, cells->generation++) {
        collide(cells, chirality, key);
        for (int y = 0; y < cells->height; y++)
            for (int x = 0; x < cells->width; x++) next[(size_t)y * (size_t)cells->width + (size_t)x] = streamed(gas, cells, x, y);
        unsigned char *before = cells->states;
        cells->states = next, next = before;
    }
}

int main(int count, char **given) {
    if (count < 2 || count > 4) stop("usage: bytes G [CHIRALITY [GAS]] < CELLS");
    long generations = atol(given[1]);
    struct chirality chirality = chirality_of(given[2]);
    const char *name = count > 3 ? given[3] : fhp1.name;
    const struct gas *gas = !strcmp(name, hpp.name) ? &hpp : !strcmp(name, fhp_rest.name) ? &fhp_rest : &fhp1;
    if (strcmp(name, gas->name)) stop("no such gas");
    struct cells cells = read_cells();
    make_collisions(gas);
    double begun = seconds_now();
    if (gas == &hpp) compute(&hpp, &cells, generations, chirality);
    else if (gas == &fhp_rest) compute(&fhp_rest, &cells, generations, chirality);
    else compute(&fhp1, &cells, generations, chirality);
    return print_cells(&cells, seconds_now() - begun);
}

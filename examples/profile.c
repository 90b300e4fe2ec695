/* The flow past a block in a channel: the fluid cells of each row, its particles, and their momentum eastwards.
 *
 *     cc -o profile examples/profile.c $(pkg-config --cflags --libs fhpgas)     where make install put the library
 *     ./profile 1000                                                            after 1000 generations
 */
#include "fhpgas.h"
#include <stdio.h>
#include <stdlib.h>

enum { WIDTH = 200, HEIGHT = 40, CELLS = WIDTH * HEIGHT, GAS = FHPGAS_FHP1, DIRECTIONS = 6, SEED = 1 };

static void done(uint32_t status) {
    if (status == FHPGAS_DONE) return;
    fprintf(stderr, "profile: refused with status %u\n", (unsigned)status);
    exit(1);
}

int main(int count, char **words) {
    uint64_t generations = count > 1 ? strtoull(words[1], NULL, 10) : 0;
    uint8_t walls[CELLS], cells[CELLS];
    for (int i = 0; i < CELLS; i++) walls[i] = i % WIDTH / 10 == 5 && i / WIDTH / 10 == 1;
    for (int i = 0; i < CELLS; i++) cells[i] = !walls[i] && i * 7 % 5 < 2; /* in two of five cells a particle that moves east */
    size_t one = fhpgas_words(1, WIDTH, HEIGHT), all = fhpgas_words(DIRECTIONS, WIDTH, HEIGHT), more = fhpgas_work_words(GAS, WIDTH);
    uint64_t *solid = calloc(one + all + more, sizeof *solid), *states = solid + one, *work = states + all;
    if (!solid) return 1;
    done(fhpgas_pack(1, WIDTH, HEIGHT, walls, CELLS, solid, one));
    done(fhpgas_pack(DIRECTIONS, WIDTH, HEIGHT, cells, CELLS, states, all));
    done(fhpgas_advance(GAS, FHPGAS_SEEDED, SEED, 0, generations, WIDTH, HEIGHT, 0, solid, one, states, all, work, more));
    int64_t sums[HEIGHT][4]; /* of blocks that are a row each */
    done(fhpgas_sums(GAS, WIDTH, HEIGHT, WIDTH, 1, solid, one, states, all, sums[0], 4 * HEIGHT));
    for (int y = 0; y < HEIGHT; y++) printf("%d %d %d\n", (int)sums[y][0], (int)sums[y][1], (int)sums[y][2]);
}

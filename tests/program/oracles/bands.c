/* FHP-I in plain C on bit planes, to compare the speed and the answers of fhpgas with. The lattice is cut into bands of rows, one for each
   thread, which meet once in each generation; a band is updated in place, through a window of three collided rows. A thread leaves
   copies of its first row and its last for its neighbours, each of which collides that row once more. With one thread it is the plainest
   fast program: the whole lattice in place. It reads cells as `fhpgas run` prints them, computes G generations and prints the cells; on
   standard error the seconds that the generations took. CHIRALITY is left, right or a seed.
   Usage: bands G THREADS [CHIRALITY] < CELLS */
#include "cells.h"
#include "key_stream.h"
#include <pthread.h>
#include <sched.h>
#include <stdatomic.h>

/* A row is six planes, one for each direction, and a plane has a bit for each cell, 64 in a word, the first cell in the least bit. A
   collided row has words beside each of its planes, in which stand the cells that come round the ends. */
typedef uint64_t Word;
#define INLINED static inline __attribute__((always_inline))
#if defined(__clang__)
#define APART _Pragma("clang loop vectorize(assume_safety)")
#else
#define APART _Pragma("GCC ivdep")
#endif
enum { EDGE = 8, WINDOW = 3 };

struct channel {
    int width, height, words, random_words; /* of a plane, and of the random bits of a row, in 32 bits */
    size_t row_words, edged, edged_row;     /* words of a row, of a plane with edges and of a row of such planes */
    int last_bit;                           /* of the last cell, in its word */
    Word last_mask;                         /* the cells of the last word */
    unsigned char *near_solid;              /* whether the row, or the one above or below, has a solid cell */
    Word *solid, *fluid, *wall;
};

/* The solid cells of a row with edges. The rows past the walls are solid everywhere. */
INLINED const Word *solid_row(const struct channel *c, int y) { return c->solid + (size_t)(y + 1) * c->edged + EDGE; }

INLINED const Word *fluid_row(const struct channel *c, int y) { return c->fluid + (size_t)y * (size_t)c->words; }

/* lets the last cell stand before the first one */
INLINED void join_before(const struct channel *c, Word *plane) { plane[-1] = plane[c->words - 1] >> c->last_bit << 63; }

/* lets the first cell stand behind the last one */
INLINED void join_behind(const struct channel *c, Word *plane) {
    Word first = plane[0] & 1;
    plane[c->words] = first;
    if (c->last_bit < 63) plane[c->words - 1] |= first << (c->last_bit + 1);
}

static void mark_solid(struct channel *c, const struct cells *cells, int y) {
    Word *solid = c->solid + (size_t)(y + 1) * c->edged + EDGE;
    int any = 0;
    for (int x = 0; x < c->width; x++)
        if (row_of_states(cells, y)[x] == SOLID) solid[x / 64] |= (Word)1 << x % 64, any = 1;
    for (int near = y ? y - 1 : 0; any && near <= y + 1 && near < c->height; near++) c->near_solid[near] = 1;
    Word *fluid = c->fluid + (size_t)y * (size_t)c->words;
    for (int j = 0; j < c->words; j++) fluid[j] = ~solid[j];
    fluid[c->words - 1] &= c->last_mask;
    join_before(c, solid);
    join_behind(c, solid);
}

static struct channel *new_channel(const struct cells *cells) {
    struct channel *c = zeros(sizeof *c);
    c->width = cells->width, c->height = cells->height;
    c->words = (c->width + 63) / 64, c->random_words = (c->width + 31) / 32;
    c->row_words = (size_t)(DIRECTIONS * c->words);
    c->edged = (size_t)((c->words + 7) / 8 * 8 + 2 * EDGE), c->edged_row = DIRECTIONS * c->edged;
    c->last_bit = (c->width - 1) % 64, c->last_mask = UINT64_MAX >> (63 - c->last_bit);
    c->near_solid = zeros((size_t)c->height);
    c->solid = zeros((size_t)(c->height + 2) * c->edged * sizeof(Word));
    c->fluid = zeros((size_t)c->height * (size_t)c->words * sizeof(Word));
    c->wall = zeros((c->edged_row + EDGE) * sizeof(Word));
    memset(c->solid, 0xff, c->edged * sizeof(Word));
    memset(c->solid + (size_t)(c->height + 1) * c->edged, 0xff, c->edged * sizeof(Word));
    for (int y = 0; y < c->height; y++) mark_solid(c, cells, y);
    return c;
}

static Word *planes_of(const struct channel *c, const struct cells *cells) {
    Word *rows = zeros((size_t)c->height * c->row_words * sizeof(Word));
    for (int y = 0; y < c->height; y++)
        for (int x = 0; x < c->width; x++) {
            Word state = row_of_states(cells, y)[x];
            Word *word = rows + (size_t)y * c->row_words + x / 64;
            for (int i = 0; i < DIRECTIONS && state != SOLID; i++) word[(size_t)(i * c->words)] |= (state >> i & 1) << x % 64;
        }
    return rows;
}

static void put_states(const struct channel *c, const Word *rows, struct cells *cells) {
    for (int y = 0; y < c->height; y++)
        for (int x = 0; x < c->width; x++) {
            const Word *word = rows + (size_t)y * c->row_words + x / 64;
            unsigned char *state = row_of_states(cells, y) + x, found = 0;
            for (int i = 0; i < DIRECTIONS; i++) found |= (unsigned char)((word[i * c->words] >> x % 64 & 1) << i);
            if (*state != SOLID)
                *state = found;
            else if (found)
                stop("a particle in a solid cell");
        }
}

static Word *new_window(const struct channel *c) { return zeros((WINDOW * c->edged_row + 2 * EDGE) * sizeof(Word)); }

/* the place of row y among the three of a window */
INLINED Word *in_window(const struct channel *c, Word *window, int y) { return window + (size_t)(y % WINDOW) * c->edged_row + EDGE; }

/* the six planes of a row, some words apart, by names of their own, so that a compiler knows them apart */
#define PLANES(kind, name, row, apart) \
    kind *restrict name##0 = (row), *restrict name##1 = name##0 + (apart), *restrict name##2 = name##1 + (apart), \
         *restrict name##3 = name##2 + (apart), *restrict name##4 = name##3 + (apart), *restrict name##5 = name##4 + (apart)

/* Pairs that meet head on turn to the left, or to the right where the random bit is 0, and triples turn about. */
INLINED void collide_words(int words, size_t edged, const Word *restrict row, Word *restrict out, const RowBits *restrict bits) {
    PLANES(const Word, p, row, words);
    PLANES(Word, q, out, edged);
    APART
    for (int j = 0; j < words; j++) {
        Word e = p0[j], ne = p1[j], nw = p2[j], w = p3[j], sw = p4[j], se = p5[j];
        Word both_e = e & w, both_ne = ne & sw, both_nw = nw & se, any_e = e | w, any_ne = ne | sw, any_nw = nw | se;
        Word pair_e = both_e & ~(any_ne | any_nw), pair_ne = both_ne & ~(any_e | any_nw), pair_nw = both_nw & ~(any_e | any_ne);
        Word triple = (any_e ^ both_e) & (any_ne ^ both_ne) & (any_nw ^ both_nw) & (e ^ ne) & (ne ^ nw);
        Word left = bits ? bits[j] : UINT64_MAX;
        Word turn_e = pair_e | triple | (pair_nw & left) | (pair_ne & ~left);
        Word turn_ne = pair_ne | triple | (pair_e & left) | (pair_nw & ~left);
        Word turn_nw = pair_nw | triple | (pair_ne & left) | (pair_e & ~left);
        q0[j] = e ^ turn_e, q3[j] = w ^ turn_e;
        q1[j] = ne ^ turn_ne, q4[j] = sw ^ turn_ne;
        q2[j] = nw ^ turn_nw, q5[j] = se ^ turn_nw;
    }
}

/* Row y collided, into a row with edges. A solid cell holds no particle, so it needs no mask. */
static void collide_row(const struct channel *c, int y, const Word *row, Word *out, const RowBits *bits) {
    if (bits)
        collide_words(c->words, c->edged, row, out, bits);
    else
        collide_words(c->words, c->edged, row, out, NULL);
    join_before(c, out);
    join_behind(c, out + 3 * c->edged);
    if (y % 2) {
        join_before(c, out + c->edged);
        join_before(c, out + 5 * c->edged);
    } else {
        join_behind(c, out + 2 * c->edged);
        join_behind(c, out + 4 * c->edged);
    }
}

/* what the cells of a word get from their western neighbours, and from their eastern ones */
#define FROM_WEST(p, j) ((p)[j] << 1 | (p)[(j)-1] >> 63)
#define FROM_EAST(p, j) ((p)[j] >> 1 | (p)[(j) + 1] << 63)

/* a row with no solid cell in it or beside it; past a wall stand its own particles, turned about */
INLINED void stream_open(int words, size_t edged, const Word *restrict up, const Word *restrict mid, const Word *restrict down,
                         Word *restrict out, int odd) {
    PLANES(Word, q, out, words);
    const Word *restrict e = mid, *restrict w = mid + 3 * edged;
    const Word *restrict ne = down ? down + edged : mid + 4 * edged, *restrict nw = down ? down + 2 * edged : mid + 5 * edged;
    const Word *restrict sw = up ? up + 4 * edged : mid + edged, *restrict se = up ? up + 5 * edged : mid + 2 * edged;
    APART
    for (int j = 0; j < words; j++) {
        q0[j] = FROM_WEST(e, j);
        q3[j] = FROM_EAST(w, j);
        q1[j] = down && !odd ? FROM_WEST(ne, j) : ne[j];
        q2[j] = down && odd ? FROM_EAST(nw, j) : nw[j];
        q4[j] = up && odd ? FROM_EAST(sw, j) : sw[j];
        q5[j] = up && !odd ? FROM_WEST(se, j) : se[j];
    }
}

/* A row near solid cells. A particle that would come from a solid cell is the cell's own, sent back. */
INLINED void stream_near(const struct channel *c, int y, const Word *restrict up, const Word *restrict mid, const Word *restrict down,
                         Word *restrict out, int odd) {
    const int words = c->words;
    const Word *restrict above = solid_row(c, y - 1), *restrict here = solid_row(c, y), *restrict below = solid_row(c, y + 1);
    const Word *restrict fluid = fluid_row(c, y);
    PLANES(const Word, m, mid, c->edged);
    PLANES(Word, q, out, words);
    const Word *restrict ne = down + c->edged, *restrict nw = down + 2 * c->edged;
    const Word *restrict sw = up + 4 * c->edged, *restrict se = up + 5 * c->edged;
    APART
    for (int j = 0; j < words; j++) {
        q0[j] = fluid[j] & (FROM_WEST(m0, j) | (FROM_WEST(here, j) & m3[j]));
        q3[j] = fluid[j] & (FROM_EAST(m3, j) | (FROM_EAST(here, j) & m0[j]));
        q1[j] = fluid[j] & (odd ? ne[j] | (below[j] & m4[j]) : FROM_WEST(ne, j) | (FROM_WEST(below, j) & m4[j]));
        q2[j] = fluid[j] & (odd ? FROM_EAST(nw, j) | (FROM_EAST(below, j) & m5[j]) : nw[j] | (below[j] & m5[j]));
        q4[j] = fluid[j] & (odd ? FROM_EAST(sw, j) | (FROM_EAST(above, j) & m1[j]) : sw[j] | (above[j] & m1[j]));
        q5[j] = fluid[j] & (odd ? se[j] | (above[j] & m2[j]) : FROM_WEST(se, j) | (FROM_WEST(above, j) & m2[j]));
    }
}

/* Row y of the next generation, from the collided rows above it, at it and below it. Past the walls nothing is read. */
static void stream_row(const struct channel *c, int y, const Word *up, const Word *mid, const Word *down, Word *out) {
    const int words = c->words, odd = y % 2;
    if (y == 0) up = NULL;
    if (y + 1 == c->height) down = NULL;
    if (c->near_solid[y]) {
        if (odd)
            stream_near(c, y, up ? up : c->wall + EDGE, mid, down ? down : c->wall + EDGE, out, 1);
        else
            stream_near(c, y, up ? up : c->wall + EDGE, mid, down ? down : c->wall + EDGE, out, 0);
        return;
    }
    if (!up || !down)
        stream_open(words, c->edged, up, mid, down, out, odd);
    else if (odd)
        stream_open(words, c->edged, up, mid, down, out, 1);
    else
        stream_open(words, c->edged, up, mid, down, out, 0);
    if (c->last_bit < 63)
        for (int i = 0; i < DIRECTIONS; i++) out[(i + 1) * words - 1] &= c->last_mask;
}

/* Threads that wait look again some times, then let others run, and never sleep. */
enum { SPINS = 32, MOST_THREADS = 64 };

static inline void wait_a_moment(int *tries) {
    if (++*tries < SPINS) {
        _mm_pause();
    } else {
        sched_yield();
        *tries = SPINS / 2;
    }
}

/* where threads meet: each waits until all have come */
struct meeting {
    _Alignas(128) atomic_int to_come;
    _Alignas(128) atomic_int number;
    int threads;
};

static void begin_meetings(struct meeting *meeting, int threads) {
    meeting->threads = threads;
    atomic_init(&meeting->to_come, threads);
    atomic_init(&meeting->number, 0);
}

static void meet(struct meeting *meeting) {
    int number = atomic_load_explicit(&meeting->number, memory_order_relaxed), tries = 0;
    if (atomic_fetch_sub_explicit(&meeting->to_come, 1, memory_order_acq_rel) == 1) {
        atomic_store_explicit(&meeting->to_come, meeting->threads, memory_order_relaxed);
        atomic_store_explicit(&meeting->number, number + 1, memory_order_release);
    } else {
        while (atomic_load_explicit(&meeting->number, memory_order_acquire) == number) wait_a_moment(&tries);
    }
}

static const struct channel *channel;
static struct chirality chirality;
static const RowBits right[MOST_SIDE / 64]; /* a row of bits that are 0 */
static Word *rows, *copies;
static long first, generations;
static int threads;
static struct meeting starts, ends;

/* the row that a band left for its neighbours before a generation: its first or its last, in one of two sets by turns */
static Word *copy_of(long generation, int band, int last) {
    size_t apart = (channel->row_words + 15) / 16 * 16;
    return copies + ((size_t)(generation % 2) * (size_t)threads * 2 + (size_t)(2 * band + last)) * apart;
}

static Word *row_at(int y) { return rows + (size_t)y * channel->row_words; }

static int begin_of(int band) { return (int)((long)channel->height * band / threads); }

static void leave_copies(long generation, int band) {
    memcpy(copy_of(generation, band, 0), row_at(begin_of(band)), channel->row_words * sizeof(Word));
    memcpy(copy_of(generation, band, 1), row_at(begin_of(band + 1) - 1), channel->row_words * sizeof(Word));
}

/* Row y before a generation, for a band that begins at `begin` and stops before `stop`. */
static const Word *row_before(long generation, int band, int y, int begin, int stop) {
    if (y < begin) return copy_of(generation, band - 1, 1);
    return y < stop ? row_at(y) : copy_of(generation, band + 1, 0);
}

static void make_generation(long generation, int band, Word *window, struct key_stream *key) {
    const struct channel *c = channel;
    const int begin = begin_of(band), stop = begin_of(band + 1);
    const int lowest = begin ? begin - 1 : 0, past = stop < c->height ? stop + 1 : c->height;
    if (chirality.seeded) start_stream(key, (uint64_t)(first + generation), (uint64_t)lowest * (uint64_t)c->random_words);
    for (int y = lowest; y < past; y++) {
        const RowBits *bits = chirality.seeded ? next_row_bits(key, c->random_words) : chirality.left ? NULL : right;
        collide_row(c, y, row_before(generation, band, y, begin, stop), in_window(c, window, y), bits);
        if (y > begin)
            stream_row(c, y - 1, in_window(c, window, y + 1), in_window(c, window, y - 1), in_window(c, window, y), row_at(y - 1));
    }
    if (stop == c->height)
        stream_row(c, stop - 1, in_window(c, window, stop + 1), in_window(c, window, stop - 1), NULL, row_at(stop - 1));
}

static void *work(void *given) {
    int band = (int)(intptr_t)given;
    Word *window = new_window(channel);
    struct key_stream *key = new_key_stream(chirality.seed);
    leave_copies(0, band);
    meet(&starts);
    for (long g = 0; g < generations; g++) {
        make_generation(g, band, window, key);
        if (threads == 1) continue;
        leave_copies(g + 1, band);
        meet(&ends);
    }
    return NULL;
}

/* the seconds from the start of the first generation to the end of the last */
static double run(void) {
    pthread_t started[MOST_THREADS];
    begin_meetings(&starts, threads + 1);
    begin_meetings(&ends, threads);
    for (int band = 0; band < threads; band++)
        if (pthread_create(&started[band], NULL, work, (void *)(intptr_t)band)) stop("a thread was refused");
    for (int tries = 0; atomic_load(&starts.to_come) != 1;) wait_a_moment(&tries);
    double begun = seconds_now();
    meet(&starts);
    for (int band = 0; band < threads; band++) pthread_join(started[band], NULL);
    return seconds_now() - begun;
}

int main(int count, char **given) {
    if (count < 3 || count > 4) stop("usage: bands G THREADS [CHIRALITY] < CELLS");
    generations = atol(given[1]);
    threads = atoi(given[2]);
    chirality = chirality_of(given[3]);
    if (threads < 1 || threads > MOST_THREADS) stop("THREADS must be 1 to 64");
    struct cells cells = read_cells();
    if (threads > cells.height) threads = cells.height;
    first = cells.generation;
    channel = new_channel(&cells);
    rows = planes_of(channel, &cells);
    copies = zeros((channel->row_words + 15) / 16 * 16 * sizeof(Word) * 4 * (size_t)threads);
    double seconds = run();
    put_states(channel, rows, &cells);
    cells.generation += generations;
    return print_cells(&cells, seconds);
}

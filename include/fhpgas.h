/* fhpgas: a lattice gas in memory that the caller gives.
 *
 * A call reads and writes nothing but its arguments, takes no memory, starts no thread, and returns. It refuses every number, length and
 * byte that is not lawful, and then leaves all as it was. This is proved (docs/PROVED.md) of the library that the Rattle kit builds, and of
 * no library that has a function fhpgas_not_proved: that one is plain Rust of the same sources, and the function says of which build.
 *
 * THE CALLER OWES, for nothing can look at it: a pointer is valid for its length and aligned to its type, the arrays of one call do not
 * overlap, and nobody reads or writes them until it returns. Calls over different arrays may run side by side.
 *
 * A lattice is periodic in x, and has walls above its first row and below its last one. Row 0 is at the top.
 *
 * PLANES. A plane has a bit per cell. A row of a plane has a word for each 64 cells, width / 64 rounded up: bit b of word j is cell
 * 64 * j + b. Bits past the width have no effect, and fhpgas_pack writes them as zero. An array of n planes has row 0 first,
 * and of each row the words of plane 0, then those of plane 1, and so on. A state is a number with bit i for a particle in direction i, so
 * the states of a gas are as many planes as it has directions. The solid cells are one plane, 1 where a cell is solid.
 *
 * Arrays of bytes have a byte per cell, row 0 first, each row from the west.
 */
#ifndef FHPGAS_H
#define FHPGAS_H

#include <stddef.h>
#include <stdint.h>

#ifdef __cplusplus
extern "C" {
#endif

/* The number of this interface. Another number means that calls, numbers or arrays have another meaning. */
#define FHPGAS_INTERFACE 3

/* The gases: FHP-I (6 directions), HPP (4), and FHP with a particle at rest (7). */
enum { FHPGAS_FHP1 = 0, FHPGAS_HPP = 1, FHPGAS_FHP_REST = 2 };

/* The random bits of collisions: of the seed, the generation and the cell's place; or all 1 (pairs turn to the left), or all 0. */
enum { FHPGAS_SEEDED = 0, FHPGAS_LEFT = 1, FHPGAS_RIGHT = 2 };

/* What a call returns: done, or the first of these that is not lawful. */
enum {
    FHPGAS_DONE = 0,
    FHPGAS_GAS = 1,         /* no such gas, or a number of planes that is not 1 to 8 */
    FHPGAS_CHIRALITY = 2,   /* no such source of random bits */
    FHPGAS_SIZE = 3,        /* width or height is not 1 to 65536 */
    FHPGAS_PLACE = 4,       /* first_row is odd */
    FHPGAS_GENERATIONS = 5, /* first + generations is not below 2^64 */
    FHPGAS_BLOCK = 6,       /* block_width or block_height is 0 */
    FHPGAS_LENGTH = 7,      /* an array has not the length that is asked for */
    FHPGAS_BYTE = 8         /* a byte is not below 2^planes */
};

/* FHPGAS_INTERFACE of the library. */
uint32_t fhpgas_interface(void);

/* The number of directions of a gas; 0 if there is no such gas. */
uint32_t fhpgas_directions(uint32_t gas);

/* The number of words of so many planes; 0 if planes is not 1 to 8, or width or height not 1 to 65536. */
size_t fhpgas_words(uint32_t planes, uint32_t width, uint32_t height);

/* The number of words of the memory that fhpgas_advance works in; 0 if there is no such gas, or width is not 1 to 65536. */
size_t fhpgas_work_words(uint32_t gas, uint32_t width);

/* Writes bytes into planes: plane i gets bit i of each byte. bytes has width * height bytes, each below 2^planes, and words has
 * fhpgas_words(planes, width, height) words. Solid cells: planes = 1, and each byte is 0 or 1.
 * Refuses with GAS, SIZE, LENGTH, BYTE. */
uint32_t fhpgas_pack(uint32_t planes, uint32_t width, uint32_t height, const uint8_t *bytes, size_t bytes_length, uint64_t *words,
                     size_t words_length);

/* Writes planes into bytes: bit i of each byte is plane i, and the other bits are 0. Lengths are those of fhpgas_pack.
 * Refuses with GAS, SIZE, LENGTH. */
uint32_t fhpgas_unpack(uint32_t planes, uint32_t width, uint32_t height, const uint64_t *words, size_t words_length, uint8_t *bytes,
                       size_t bytes_length);

/* Replaces the states of a lattice of generation `first` by those so many generations later.
 * solid has fhpgas_words(1, width, height) words, states fhpgas_words(fhpgas_directions(gas), width, height), and work, whose content
 * before and after the call means nothing, fhpgas_work_words(gas, width).
 * The lattice may be a part of a whole: whole rows of it, from row first_row on, whose random bits it draws. For a lattice that is no part
 * first_row is 0. The part itself has walls as any lattice. Its cells with at least `generations` rows of the part between them and each
 * cut, an end of the part at which the whole goes on, are those of the whole.
 * Refuses with GAS, CHIRALITY, SIZE, PLACE, GENERATIONS, LENGTH. */
uint32_t fhpgas_advance(uint32_t gas, uint32_t chirality, uint64_t seed, uint64_t first, uint64_t generations, uint32_t width,
                        uint32_t height, uint32_t first_row, const uint64_t *solid, size_t solid_length, uint64_t *states,
                        size_t states_length, uint64_t *work, size_t work_length);

/* Sums the cells of a lattice over blocks of block_width columns and block_height rows, from the top left. Blocks at the right and at the
 * bottom are smaller if the lattice ends there. sums gets four numbers per block: its fluid cells, its particles, and the particles' momenta
 * eastwards and northwards in the units of `fhpgas coarse`, by rows of blocks from the top, each from the left. It has
 * 4 * (width / block_width rounded up) * (height / block_height rounded up) numbers, solid and states have the lengths of fhpgas_advance.
 * Bits of solid cells in states, which a generation of fhpgas_advance leaves 0, count as particles.
 * Refuses with GAS, SIZE, BLOCK, LENGTH. */
uint32_t fhpgas_sums(uint32_t gas, uint32_t width, uint32_t height, uint32_t block_width, uint32_t block_height, const uint64_t *solid,
                     size_t solid_length, const uint64_t *states, size_t states_length, int64_t *sums, size_t sums_length);

#ifdef __cplusplus
}
#endif

#endif

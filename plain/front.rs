//! Lattice gases, bit by bit: particles hop from cell to cell, at most one per cell and direction, and
//! collide by a table. The gases are FHP-I, FHP with rest particles, and HPP.
//!
//! ```rust
//! use fhpgas::{Chirality, Gas, Lattice};
//!
//! let mut states = [0; 24]; // three rows of eight cells
//! states[8 + 3] = 0b1001; // in column 3 of row 1 one particle to the east, one to the west
//! let mut lattice = Lattice::new(Gas::Fhp1, Chirality::Left, (8, 3), &states, &[0; 24])?;
//! lattice.run(1)?;
//! // They met, and flew apart to the north-east and to the south-west.
//! assert_eq!((lattice.states()[4], lattice.states()[16 + 3]), (0b10, 0b1_0000));
//! assert_eq!(lattice.blocks(8, 3)?[0].particles, 2);
//! # Ok::<(), fhpgas::Error>(())
//! ```
//!
//! A lattice is periodic in x, with walls above its first row and below its last one. Walls and solid
//! cells send a particle back.
//!
//! | to | call |
//! |---|---|
//! | make a lattice | `Lattice::new`, `from_planes`, `read` with the feature `scenes` |
//! | continue a run | `at_generation`, `run`, or on several cores `run_by` |
//! | turn back | `reverse` |
//! | look at it | `states`, `solid`, `rows`, `blocks`, `profile` |
//! | hand it on | `scene` with the feature `scenes`: the program and the Python package read it |
//!
//! ## Speed
//!
//! Run it by `cargo run --release`: without optimization it is hundreds of times slower. A debug build of a
//! program stays fast if its `Cargo.toml` has the crates that it calls optimized:
//!
//! ```toml
//! [profile.dev.package."*"]
//! opt-level = 3
//! ```
//!
//! ## Features
//!
//! By default there is none, and the crate needs `rand_chacha` and `rand_core` only. `scenes` reads and
//! writes scenes. `program` is the program `fhpgas`: `cargo install --path . --features program`.
//!
//! ## What is proved
//!
//! Below this front are sources of the project Luqembisho, which are proved. **This build is not proved**:
//! it is tested, and looks at every index. The sources' modules forbid unsafe code. The private module
//! `shim`, which stands for the library of their language, has some, so the crate as a whole cannot.
#![deny(missing_docs, unsafe_code)]
// modules

use gas_bits::word::words_for;
use gas_export::calls;
use gas_geom::{fhp_rest::FhpRest, fhp1::Fhp1, hpp::Hpp};
use gas_rows::collision::Collision;
use std::ops::Range;
use std::thread;

#[cfg(feature = "scenes")]
pub use gas_scene::error::SceneError;

/// The last generation that a scene has.
const LAST_GENERATION: u64 = 1_000_000_000_000;
/// Generations from one exchange of strips to the next, and rows that a strip has beside its own.
const MARGIN: usize = 32;
/// Generations after which a strip needs fewer rows, an even number.
const SHRINK: usize = 8;

/// The rules of a lattice.
#[derive(Clone, Copy, Debug, PartialEq, Eq, Hash)]
pub enum Gas {
    /// FHP-I: E, NE, NW, W, SW and SE are bits 0 to 5 of a state. Odd rows lie half a cell to the east.
    Fhp1,
    /// HPP: E, N, W and S are bits 0 to 3.
    Hpp,
    /// FHP-I with a particle at rest, bit 6, whose rules were published as FHP-II.
    FhpRest,
}

impl Gas {
    /// The number of directions, and of bits of a state.
    ///
    /// ```
    /// assert_eq!(fhpgas::Gas::Fhp1.directions(), 6);
    /// ```
    pub fn directions(self) -> u32 {
        calls::fhpgas_directions(self as u32)
    }
}

/// The side to which head-on pairs turn.
#[derive(Clone, Copy, Debug, PartialEq, Eq, Hash)]
pub enum Chirality {
    /// Either side, by random bits of this seed, the generation and the cell's place.
    Seeded(u64),
    /// Always to the left.
    Left,
    /// Always to the right.
    Right,
}

/// Which argument is not lawful.
///
/// ```
/// use fhpgas::{Chirality, Error, Gas, Lattice};
/// let wrong = Lattice::new(Gas::Hpp, Chirality::Left, (2, 2), &[0; 3], &[0; 4]).unwrap_err();
/// assert_eq!(wrong, Error::Length("states", 3, 4));
/// assert_eq!(wrong.to_string(), "states has 3 items, not 4");
/// ```
#[derive(Clone, Copy, Debug, PartialEq, Eq)]
#[non_exhaustive]
pub enum Error {
    /// `width` or `height` is not 1 to 65536.
    Size(u32, u32),
    /// This argument has so many items, and not as many as the second number.
    Length(&'static str, usize, usize),
    /// This argument has a value with bits that mean nothing.
    Value(&'static str),
    /// `states` has particles in a solid cell of this row.
    Particle(usize),
    /// The lattice's generation and `generations` together are not below 2^64.
    Generations(u64),
    /// A generation is above 10^12, the last one of a scene.
    Generation(u64),
    /// The number of threads is 0.
    Threads,
    /// Seeded collisions, which only run forwards.
    Seeded,
    /// A seed is not below 2^63, as a scene's is.
    Seed(u64),
    /// The text is no scene.
    #[cfg(feature = "scenes")]
    Scene(SceneError),
    /// `block_width` or `block_height` is 0.
    Block(u32, u32),
    /// Memory was refused.
    Memory,
}

impl std::fmt::Display for Error {
    fn fmt(&self, f: &mut std::fmt::Formatter<'_>) -> std::fmt::Result {
        match self {
            Error::Size(w, h) => write!(f, "width and height are 1 to 65536, not {w} and {h}"),
            Error::Length(name, found, wanted) => write!(f, "{name} has {found} items, not {wanted}"),
            Error::Value(name) => write!(f, "{name} has a value with bits that mean nothing"),
            Error::Particle(row) => write!(f, "states has particles in a solid cell of row {row}"),
            Error::Generations(n) => write!(f, "generations is too large: {n} more pass 2^64"),
            Error::Generation(n) => write!(f, "a generation is 0 to 10^12, not {n}"),
            Error::Threads => f.write_str("the number of threads is 1 or more, not 0"),
            Error::Seeded => f.write_str("seeded collisions only run forwards: take left or right"),
            Error::Seed(seed) => write!(f, "the seed of a scene is below 2^63, and not {seed}"),
            #[cfg(feature = "scenes")]
            Error::Scene(why) => write!(f, "{why}"),
            Error::Block(w, h) => write!(f, "block_width and block_height are above 0, not {w}, {h}"),
            Error::Memory => f.write_str("memory refused"),
        }
    }
}

impl std::error::Error for Error {}

fn zeros<T: Clone + Default>(number: usize) -> Result<Vec<T>, Error> {
    let mut items = Vec::new();
    items.try_reserve_exact(number).map_err(|_| Error::Memory)?;
    items.resize(number, T::default());
    Ok(items)
}

/// The number of words of so many planes.
fn words_of(planes: u32, width: u32, height: u32) -> Result<usize, Error> {
    let words = calls::fhpgas_words(planes, width, height);
    lawful(words != 0, Error::Size(width, height)).map(|()| words)
}

fn lawful(is_so: bool, refused: Error) -> Result<(), Error> {
    is_so.then_some(()).ok_or(refused)
}

fn has_length<T>(name: &'static str, items: &[T], wanted: usize) -> Result<(), Error> {
    lawful(items.len() == wanted, Error::Length(name, items.len(), wanted))
}

/// The sums over the cells of a block.
#[derive(Clone, Copy, Debug, Default, PartialEq, Eq)]
pub struct Sums {
    /// Cells that are not solid.
    pub fluid: i64,
    /// Particles.
    pub particles: i64,
    /// Momentum to the east. The unit is 1/2 of a cell per generation, in HPP 1.
    pub east: i64,
    /// Momentum to the north. The unit is sqrt(3)/2 of a cell's width per generation, in HPP 1.
    pub north: i64,
}

/// The cells of a gas at a generation.
///
/// A cell's state is a byte with bit i for a particle in direction i. In *planes* a row has a word of 64
/// cells for each direction and each 64 columns, direction by direction: bit b of word j is column
/// 64 j + b. Row 0 is at the top.
#[derive(Clone, Debug, PartialEq, Eq)]
pub struct Lattice {
    gas: Gas,
    chirality: Chirality,
    width: u32,
    height: u32,
    generation: u64,
    solid: Vec<u64>,
    states: Vec<u64>,
}

impl Lattice {
    /// The lattice of generation 0 with these `width * height` states, row 0 first, and as many bytes that
    /// are 1 where a cell is solid and else 0. A solid cell has no particles.
    ///
    /// ```
    /// # use fhpgas::{Chirality, Gas, Lattice};
    /// // a particle to the east, an empty cell and a solid one
    /// let mut lattice = Lattice::new(Gas::Hpp, Chirality::Left, (3, 1), &[1, 0, 0], &[0, 0, 1])?;
    /// lattice.run(2)?;
    /// assert_eq!(lattice.states(), [0, 0b100, 0]); // reflected to the west
    /// # Ok::<(), fhpgas::Error>(())
    /// ```
    pub fn new(
        gas: Gas,
        chirality: Chirality,
        (width, height): (u32, u32),
        states: &[u8],
        solid: &[u8],
    ) -> Result<Self, Error> {
        let pack = |name, planes, bytes: &[u8]| {
            let number = words_of(planes, width, height)?;
            has_length(name, bytes, width as usize * height as usize)?;
            let mut words = zeros(number)?;
            let status = calls::fhpgas_pack(planes, width, height, bytes, &mut words);
            lawful(status == 0, Error::Value(name)).map(|()| words)
        };
        let (states, solid) = (pack("states", gas.directions(), states)?, pack("solid", 1, solid)?);
        Lattice::from_planes(gas, chirality, (width, height), states, solid)
    }

    /// The same from planes. Bits past the width mean nothing.
    ///
    /// ```
    /// # use fhpgas::{Chirality, Gas, Lattice};
    /// let states = vec![0b1, 0, 0b10, 0]; // in column 0 to the east, in column 1 to the west
    /// let lattice = Lattice::from_planes(Gas::Hpp, Chirality::Left, (3, 1), states, vec![0b100])?;
    /// assert_eq!((lattice.states(), lattice.solid()), (vec![1, 0b100, 0], vec![0, 0, 1]));
    /// # Ok::<(), fhpgas::Error>(())
    /// ```
    pub fn from_planes(
        gas: Gas,
        chirality: Chirality,
        (width, height): (u32, u32),
        states: Vec<u64>,
        solid: Vec<u64>,
    ) -> Result<Self, Error> {
        has_length("states", &states, words_of(gas.directions(), width, height)?)?;
        has_length("solid", &solid, words_of(1, width, height)?)?;
        let mut lattice = Lattice { gas, chirality, width, height, generation: 0, solid, states };
        lattice.clear_past_width();
        let mut rows = lattice.rows().zip(lattice.solid.chunks(words_for(width)));
        let stray = rows.position(|(row, solid)| {
            row.iter().zip(solid.iter().cycle()).any(|(states, solid)| states & solid != 0)
        });
        drop(rows);
        stray.map_or(Ok(lattice), |row| Err(Error::Particle(row)))
    }

    fn clear_past_width(&mut self) {
        let (words, kept) = (words_for(self.width), u64::MAX >> (63 - (self.width - 1) % 64));
        let all = self.solid.iter_mut().skip(words - 1).step_by(words);
        all.chain(self.states.iter_mut().skip(words - 1).step_by(words)).for_each(|it| *it &= kept);
    }

    /// The same lattice at a generation up to 10^12, whose random bits a run takes first.
    ///
    /// ```
    /// # use fhpgas::{Chirality, Gas, Lattice};
    /// let mut whole = Lattice::new(Gas::Fhp1, Chirality::Seeded(7), (4, 1), &[9; 4], &[0; 4])?;
    /// whole.run(5)?;
    /// let states = whole.states(); // as they were kept
    /// let mut rest = Lattice::new(Gas::Fhp1, Chirality::Seeded(7), (4, 1), &states, &[0; 4])?;
    /// rest = rest.at_generation(5)?;
    /// whole.run(20)?;
    /// rest.run(20)?;
    /// assert_eq!(whole, rest);
    /// # Ok::<(), fhpgas::Error>(())
    /// ```
    pub fn at_generation(self, generation: u64) -> Result<Self, Error> {
        lawful(generation <= LAST_GENERATION, Error::Generation(generation))?;
        Ok(Lattice { generation, ..self })
    }

    /// Computes so many generations. If they are refused, nothing changes.
    ///
    /// ```
    /// # use fhpgas::{Chirality, Gas, Lattice};
    /// let mut lattice = Lattice::new(Gas::Hpp, Chirality::Left, (4, 1), &[1, 0, 0, 0], &[0; 4])?;
    /// lattice.run(3)?;
    /// assert_eq!(lattice.states(), [0, 0, 0, 1]);
    /// # Ok::<(), fhpgas::Error>(())
    /// ```
    pub fn run(&mut self, generations: u64) -> Result<(), Error> {
        self.run_by(1, generations)
    }

    /// The same by at most so many threads, which compute strips of 64 rows or more side by side. The
    /// cells are those of one thread. If the system refuses a thread, another one does its work.
    ///
    /// ```
    /// # use fhpgas::{Chirality, Gas, Lattice};
    /// let states: Vec<u8> = (0..64 * 200).map(|i| (i * 37 % 64) as u8).collect();
    /// let solid = vec![0; 64 * 200];
    /// let mut one = Lattice::new(Gas::Fhp1, Chirality::Seeded(1), (64, 200), &states, &solid)?;
    /// let mut other = one.clone();
    /// one.run(50)?;
    /// other.run_by(std::thread::available_parallelism().map_or(1, usize::from), 50)?;
    /// assert_eq!(one, other);
    /// # Ok::<(), fhpgas::Error>(())
    /// ```
    pub fn run_by(&mut self, threads: usize, generations: u64) -> Result<(), Error> {
        lawful(threads > 0, Error::Threads)?;
        let last = self.generation.checked_add(generations);
        let last = last.ok_or(Error::Generations(generations))?;
        let strips = threads.min(self.height as usize / (2 * MARGIN));
        if strips > 1 {
            self.run_strips(strips, last)?;
        } else {
            let mut work = zeros(calls::fhpgas_work_words(self.gas as u32, self.width))?;
            let rules = self.rules();
            rules.advance(self.generation..last, 0, &self.solid, &mut self.states, &mut work);
        }
        self.generation = last;
        self.clear_past_width();
        Ok(())
    }

    fn rules(&self) -> Rules {
        Rules { gas: self.gas, chirality: self.chirality, width: self.width }
    }

    /// The generations up to the last one, by a thread for each strip.
    fn run_strips(&mut self, number: usize, last: u64) -> Result<(), Error> {
        let top = |k| if k < number { self.height as usize * k / number / 2 * 2 } else { self.height as usize };
        let strips = (0..number).map(|k| Strip::of(self, top(k)..top(k + 1)));
        let mut strips = strips.collect::<Result<Vec<_>, _>>()?;
        for begun in (self.generation..last).step_by(MARGIN) {
            for k in 1..number {
                let (above, below) = strips.split_at_mut(k);
                exchange(&mut above[k - 1], &mut below[0]);
            }
            let end = last.min(begun.saturating_add(MARGIN as u64));
            thread::scope(|scope| {
                let (own, others) = strips.split_at_mut(1);
                for strip in others {
                    // a strip whose thread is refused is left for below
                    let _ = thread::Builder::new().spawn_scoped(scope, || strip.advance(end));
                }
                own[0].advance(end);
            });
            strips.iter_mut().for_each(|strip| strip.advance(end));
        }
        let rows = strips.into_iter().flat_map(|mut strip| strip.part(strip.own.clone()).to_vec());
        self.states = rows.collect();
        Ok(())
    }

    /// Reverses all particles, so that a run leads back. A generation collides and then moves, and
    /// backwards it moves and then collides: the particles collide before they are reversed, and what
    /// turned to the left turns to the right. The generation stays as it is.
    ///
    /// ```
    /// # use fhpgas::{Chirality, Gas, Lattice};
    /// let states: Vec<u8> = (0..100).map(|i| (i * 37 % 64) as u8).collect();
    /// let mut lattice = Lattice::new(Gas::Fhp1, Chirality::Left, (10, 10), &states, &[0; 100])?;
    /// lattice.run(50)?;
    /// lattice.reverse()?;
    /// lattice.run(50)?;
    /// lattice.reverse()?;
    /// assert_eq!(lattice.states(), states);
    /// # Ok::<(), fhpgas::Error>(())
    /// ```
    pub fn reverse(&mut self) -> Result<(), Error> {
        let after = match self.chirality {
            Chirality::Left => Chirality::Right,
            Chirality::Right => Chirality::Left,
            seeded if self.gas == Gas::Hpp => seeded, // whose pairs have one way to go
            Chirality::Seeded(_) => return Err(Error::Seeded),
        };
        match self.gas {
            Gas::Fhp1 => self.turn::<Fhp1>(),
            Gas::Hpp => self.turn::<Hpp>(),
            Gas::FhpRest => self.turn::<FhpRest>(),
        }?;
        self.chirality = after;
        Ok(())
    }

    /// Collides all cells, and reverses their particles.
    fn turn<G: gas_geom::gas::Gas>(&mut self) -> Result<(), Error> {
        let words_each = words_for(self.width);
        let mut bits = zeros(words_each)?;
        bits.fill(if self.chirality == Chirality::Right { 0 } else { u64::MAX });
        let rows = self.states.chunks_mut(G::DIRS as usize * words_each);
        for (row, solid) in rows.zip(self.solid.chunks(words_each)) {
            Collision { words_each, solid, chi: &bits, all_fluid: false }.collide::<G>(row);
            let pairs = (0..G::DIRS).map(|i| (i as usize, G::opposite(i) as usize));
            for (i, opposite) in pairs.filter(|(i, opposite)| i < opposite) {
                let (plane, others) = row[i * words_each..].split_at_mut(words_each);
                plane.swap_with_slice(&mut others[(opposite - i - 1) * words_each..][..words_each]);
            }
        }
        Ok(())
    }

    /// The gas.
    ///
    /// ```
    /// # use fhpgas::{Chirality, Gas, Lattice};
    /// let lattice = Lattice::new(Gas::Hpp, Chirality::Seeded(3), (3, 2), &[0; 6], &[0; 6])?;
    /// assert_eq!((lattice.gas(), lattice.chirality()), (Gas::Hpp, Chirality::Seeded(3)));
    /// assert_eq!((lattice.size(), lattice.generation()), ((3, 2), 0));
    /// # Ok::<(), fhpgas::Error>(())
    /// ```
    pub fn gas(&self) -> Gas {
        self.gas
    }

    /// The side to which head-on pairs turn.
    pub fn chirality(&self) -> Chirality {
        self.chirality
    }

    /// The numbers of columns and rows.
    pub fn size(&self) -> (u32, u32) {
        (self.width, self.height)
    }

    /// The states of the cells, row 0 first.
    pub fn states(&self) -> Vec<u8> {
        self.bytes(self.gas.directions(), &self.states)
    }

    /// 1 for each cell that is solid, else 0, row 0 first.
    pub fn solid(&self) -> Vec<u8> {
        self.bytes(1, &self.solid)
    }

    fn bytes(&self, planes: u32, words: &[u64]) -> Vec<u8> {
        let mut bytes = vec![0; self.width as usize * self.height as usize];
        calls::fhpgas_unpack(planes, self.width, self.height, words, &mut bytes);
        bytes
    }

    /// The planes of each row, from the top.
    ///
    /// ```
    /// # use fhpgas::{Chirality, Gas, Lattice};
    /// let lattice = Lattice::new(Gas::Hpp, Chirality::Left, (2, 2), &[0, 0, 1, 4], &[0; 4])?;
    /// assert_eq!(lattice.rows().nth(1), Some(&[0b1, 0, 0b10, 0][..]));
    /// # Ok::<(), fhpgas::Error>(())
    /// ```
    pub fn rows(&self) -> impl ExactSizeIterator<Item = &[u64]> {
        self.states.chunks(self.gas.directions() as usize * words_for(self.width))
    }

    /// The sums over blocks of cells, by rows of blocks from the top, each from the left. Blocks are smaller
    /// at the right and at the bottom if the lattice ends there.
    ///
    /// ```
    /// # use fhpgas::{Chirality, Gas, Lattice, Sums};
    /// let lattice = Lattice::new(Gas::Hpp, Chirality::Left, (3, 1), &[1, 3, 0], &[0, 0, 1])?;
    /// let first = Sums { fluid: 2, particles: 3, east: 2, north: 1 };
    /// assert_eq!(lattice.blocks(2, 1)?, [first, Sums::default()]);
    /// # Ok::<(), fhpgas::Error>(())
    /// ```
    pub fn blocks(&self, block_width: u32, block_height: u32) -> Result<Vec<Sums>, Error> {
        let Lattice { width, height, ref solid, ref states, .. } = *self;
        lawful(block_width > 0 && block_height > 0, Error::Block(block_width, block_height))?;
        let number = width.div_ceil(block_width) as usize * height.div_ceil(block_height) as usize;
        let mut sums = zeros(4 * number)?;
        let gas = self.gas as u32;
        calls::fhpgas_sums(gas, width, height, block_width, block_height, solid, states, &mut sums);
        let of = |it: &[i64]| Sums { fluid: it[0], particles: it[1], east: it[2], north: it[3] };
        Ok(sums.chunks_exact(4).map(of).collect())
    }

    /// The sums over each row, from the top.
    ///
    /// ```
    /// # use fhpgas::{Chirality, Gas, Lattice};
    /// let lattice = Lattice::new(Gas::Hpp, Chirality::Left, (2, 2), &[1, 1, 0, 4], &[0; 4])?;
    /// let east: Vec<i64> = lattice.profile()?.iter().map(|row| row.east).collect();
    /// assert_eq!(east, [2, -1]);
    /// # Ok::<(), fhpgas::Error>(())
    /// ```
    pub fn profile(&self) -> Result<Vec<Sums>, Error> {
        self.blocks(self.width, 1)
    }

    /// The generation: those that were computed, from the one that `at_generation` or a scene has on.
    pub fn generation(&self) -> u64 {
        self.generation
    }
}

/// What the engine asks of a lattice beside its cells.
#[derive(Clone, Copy)]
struct Rules {
    gas: Gas,
    chirality: Chirality,
    width: u32,
}

impl Rules {
    /// Computes generations of rows from an even one on, in memory for its work. All have the lengths
    /// that the call asks for.
    fn advance(
        self,
        generations: Range<u64>,
        first_row: usize,
        solid: &[u64],
        states: &mut [u64],
        work: &mut [u64],
    ) {
        let Rules { gas, width, .. } = self;
        let (chirality, seed) = match self.chirality {
            Chirality::Seeded(seed) => (0, seed),
            Chirality::Left => (1, 0),
            Chirality::Right => (2, 0),
        };
        let (first, many) = (generations.start, generations.end - generations.start);
        let (height, first_row) = ((solid.len() / words_for(width)) as u32, first_row as u32);
        let status = calls::fhpgas_advance(
            gas as u32, chirality, seed, first, many, width, height, first_row, solid, states, work,
        );
        debug_assert_eq!(status, 0);
    }
}

/// Rows of a lattice that one thread computes. A particle moves at most one row per generation, so with
/// as many rows around them as generations they are those of the whole.
struct Strip<'a> {
    rules: Rules,
    own: Range<usize>,
    /// With the rows around them.
    all: Range<usize>,
    solid: &'a [u64],
    states: Vec<u64>,
    work: Vec<u64>,
    generation: u64,
}

impl<'a> Strip<'a> {
    fn of(lattice: &'a Lattice, own: Range<usize>) -> Result<Self, Error> {
        let Lattice { gas, width, height, generation, ref solid, ref states, .. } = *lattice;
        let all = own.start.saturating_sub(MARGIN)..(own.end + MARGIN).min(height as usize);
        let words = gas.directions() as usize * words_for(width);
        let from = &states[all.start * words..all.end * words];
        let mut states = zeros(from.len())?;
        states.copy_from_slice(from);
        let work = zeros(calls::fhpgas_work_words(gas as u32, width))?;
        Ok(Strip { rules: lattice.rules(), own, all, solid, states, work, generation })
    }

    /// The words of some of its rows.
    fn part(&mut self, rows: Range<usize>) -> &mut [u64] {
        let words = self.states.len() / self.all.len();
        &mut self.states[(rows.start - self.all.start) * words..(rows.end - self.all.start) * words]
    }

    /// Its own rows at a generation, at most `MARGIN` after the last exchange.
    fn advance(&mut self, last: u64) {
        while self.generation < last {
            let left = (last - self.generation) as usize;
            let margin = left.next_multiple_of(2);
            let first = self.own.start.saturating_sub(margin).max(self.all.start);
            let end = (self.own.end + margin).min(self.all.end);
            let next = self.generation + left.min(SHRINK) as u64;
            let words = words_for(self.rules.width);
            let (rules, solid) = (self.rules, &self.solid[first * words..end * words]);
            let mut work = std::mem::take(&mut self.work);
            rules.advance(self.generation..next, first, solid, self.part(first..end), &mut work);
            self.work = work;
            self.generation = next;
        }
    }
}

/// Copies to two neighbours the rows that each has around its own.
fn exchange(above: &mut Strip<'_>, below: &mut Strip<'_>) {
    let (down, up) = (above.own.end..above.all.end, below.all.start..below.own.start);
    above.part(down.clone()).copy_from_slice(below.part(down));
    below.part(up.clone()).copy_from_slice(above.part(up));
}

/// Lattices as the texts of scenes.
#[cfg(feature = "scenes")]
mod scenes {
    use super::*;
    use gas_geom::size::Size;
    use gas_rows::channel::Channel;
    use gas_rows::chirality::Chirality as Source;
    use gas_rows::lattice::Lattice as Typed;
    use gas_scene::catalog::AnyLattice;
    use shim::alloc::{AllocError, Global};

    impl From<SceneError> for Error {
        fn from(why: SceneError) -> Self {
            if why == SceneError::Memory { Error::Memory } else { Error::Scene(why) }
        }
    }

    impl From<AllocError> for Error {
        fn from(_: AllocError) -> Self {
            Error::Memory
        }
    }

    impl Lattice {
        /// The lattice of a scene, as `fhpgas check` and the Python package read it. The seed of a
        /// scene whose chirality is not seeded means nothing, and is not kept.
        ///
        /// ```
        /// # use fhpgas::{Chirality, Gas, Lattice};
        /// let lattice = Lattice::read("gas = \"hpp\"\nseed = 5\ncells = [\"01..\", \"##04\"]")?;
        /// assert_eq!((lattice.gas(), lattice.chirality()), (Gas::Hpp, Chirality::Seeded(5)));
        /// assert_eq!(lattice.states(), [1, 0, 0, 4]);
        /// let wrong = Lattice::read("gas = \"hpp\"\ncells = [\"0g\"]").unwrap_err();
        /// assert_eq!(wrong.to_string(), "scene: row 0 cell 0 is not a cell");
        /// # Ok::<(), fhpgas::Error>(())
        /// ```
        pub fn read(scene: &str) -> Result<Self, Error> {
            let found = gas_scene::scene::read(Global, scene.as_bytes())?;
            let chirality = match found.chirality() {
                Source::Seeded(seed) => Chirality::Seeded(seed),
                Source::Left => Chirality::Left,
                Source::Right => Chirality::Right,
            };
            match found.lattice() {
                AnyLattice::Fhp1(typed) => Lattice::of(Gas::Fhp1, chirality, typed),
                AnyLattice::Hpp(typed) => Lattice::of(Gas::Hpp, chirality, typed),
                AnyLattice::FhpRest(typed) => Lattice::of(Gas::FhpRest, chirality, typed),
            }?
            .at_generation(found.generation())
        }

        fn of<G: gas_geom::gas::Gas>(
            gas: Gas,
            chirality: Chirality,
            typed: &Typed<G>,
        ) -> Result<Self, Error> {
            let size = typed.channel().size();
            let (width, height) = (size.width(), size.height());
            let mut states = zeros(words_of(gas.directions(), width, height)?)?;
            let mut solid = zeros(words_of(1, width, height)?)?;
            let words = words_for(width);
            let rows = states.chunks_mut(gas.directions() as usize * words);
            for (y, (row, mask)) in (0..).zip(rows.zip(solid.chunks_mut(words))) {
                row.copy_from_slice(typed.row(y).as_words());
                mask.copy_from_slice(typed.channel().mask(y).words());
            }
            Lattice::from_planes(gas, chirality, (width, height), states, solid)
        }

        /// The text of a scene with this lattice, a map, which `read` returns again. The program and
        /// the Python package continue its run. They read 64 MiB at most, about 33 million cells.
        ///
        /// ```
        /// # use fhpgas::{Chirality, Gas, Lattice};
        /// let lattice = Lattice::new(Gas::Fhp1, Chirality::Seeded(7), (2, 1), &[9, 0], &[0, 1])?;
        /// assert!(lattice.scene()?.contains("\"09##\""));
        /// assert_eq!(Lattice::read(&lattice.scene()?)?, lattice);
        /// # Ok::<(), fhpgas::Error>(())
        /// ```
        pub fn scene(&self) -> Result<String, Error> {
            let chirality = match self.chirality {
                Chirality::Seeded(seed) if seed >> 63 != 0 => return Err(Error::Seed(seed)),
                Chirality::Seeded(seed) => Source::Seeded(seed),
                Chirality::Left => Source::Left,
                Chirality::Right => Source::Right,
            };
            lawful(self.generation <= LAST_GENERATION, Error::Generation(self.generation))?;
            let typed = match self.gas {
                Gas::Fhp1 => AnyLattice::Fhp1(self.typed()?),
                Gas::Hpp => AnyLattice::Hpp(self.typed()?),
                Gas::FhpRest => AnyLattice::FhpRest(self.typed()?),
            };
            let text = gas_scene::checkpoint::checkpoint(Global, &typed, chirality, self.generation)?;
            Ok(text.0)
        }

        fn typed<G: gas_geom::gas::Gas>(&self) -> Result<Typed<G>, Error> {
            let size = Size::new(self.width, self.height);
            let size = size.ok_or(Error::Size(self.width, self.height))?;
            let mut typed = Typed::blank(Global, Channel::free(Global, size)?)?;
            let (states, solid) = (self.states(), self.solid());
            let solid: Vec<bool> = solid.into_iter().map(|byte| byte == 1).collect();
            let width = self.width as usize;
            for (y, (row, solid)) in (0..).zip(states.chunks(width).zip(solid.chunks(width))) {
                typed.set_row(y, solid, row);
            }
            Ok(typed)
        }
    }
}

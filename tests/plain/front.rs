//! Tries the crate `fhpgas` from outside, as safe code: in parts, and with random arguments, of which none may panic. ROUNDS says how many.
#![forbid(unsafe_code)]
use fhpgas::{Chirality, Error, Gas, Lattice, Sums};
use std::collections::BTreeSet;

/// Numbers that look random.
struct Random(u64);

impl Random {
    fn next(&mut self) -> u64 {
        self.0 = self.0.wrapping_add(0x9e37_79b9_7f4a_7c15);
        let x = (self.0 ^ (self.0 >> 30)).wrapping_mul(0xbf58_476d_1ce4_e5b9);
        let x = (x ^ (x >> 27)).wrapping_mul(0x94d0_49bb_1331_11eb);
        x ^ (x >> 31)
    }
    fn below(&mut self, end: u64) -> u64 { self.next() % end }
    fn of<T: Copy>(&mut self, items: &[T]) -> T { items[self.below(items.len() as u64) as usize] }
    fn gas(&mut self) -> Gas { self.of(&[Gas::Fhp1, Gas::Hpp, Gas::FhpRest]) }
    fn chirality(&mut self) -> Chirality {
        let seed = self.next();
        self.of(&[Chirality::Left, Chirality::Right, Chirality::Seeded(seed)])
    }
    fn cells(&mut self, gas: Gas, number: usize) -> (Vec<u8>, Vec<u8>) {
        let solid: Vec<u8> = (0..number).map(|_| u8::from(self.below(9) == 0)).collect();
        let state = |solid: &u8| if *solid == 1 { 0 } else { self.below(1 << gas.directions()) as u8 };
        (solid.iter().map(state).collect(), solid)
    }
}

fn rounds() -> u64 {
    std::env::var("ROUNDS").map_or(300, |text| text.parse().unwrap())
}

#[test]
fn planes_blocks_and_parts_of_runs_agree() {
    let mut random = Random(2);
    for _ in 0..200 {
        let (gas, chirality) = (random.gas(), random.chirality());
        let (width, height) = (1 + random.below(200) as u32, 1 + random.below(20) as u32);
        let (states, solid) = random.cells(gas, width as usize * height as usize);
        let lattice = Lattice::new(gas, chirality, (width, height), &states, &solid).unwrap();
        assert_eq!((lattice.states(), lattice.solid()), (states.clone(), solid.clone()));
        let planes: Vec<u64> = lattice.rows().flatten().copied().collect();
        let words = width.div_ceil(64) as usize;
        let mut walls = vec![u64::MAX; words * height as usize]; // what is past the width means nothing
        for (i, byte) in solid.iter().enumerate().filter(|(_, byte)| **byte == 0) {
            let (x, y) = (i % width as usize, i / width as usize);
            walls[y * words + x / 64] &= !(1 << (x % 64));
            assert_eq!(*byte, 0);
        }
        assert_eq!(Lattice::from_planes(gas, chirality, (width, height), planes, walls), Ok(lattice.clone()));
        let (mut once, mut twice) = (lattice.clone(), lattice);
        let (all, part) = (random.below(12), random.below(5));
        once.run(all + part).unwrap();
        twice.run(all).unwrap();
        twice.run(part).unwrap();
        assert_eq!(once, twice);
        let (w, h) = (1 + random.below(80) as u32, 1 + random.below(9) as u32);
        let states = once.states();
        let columns = width.div_ceil(w) as usize;
        let mut wanted = vec![(0, 0); columns * height.div_ceil(h) as usize];
        for (i, (state, solid)) in states.iter().zip(&solid).enumerate() {
            let (x, y) = (i % width as usize, i / width as usize);
            let block = &mut wanted[y / h as usize * columns + x / w as usize];
            *block = (block.0 + i64::from(1 - solid), block.1 + i64::from(state.count_ones()));
        }
        let found = once.blocks(w, h).unwrap();
        assert_eq!(found.iter().map(|it| (it.fluid, it.particles)).collect::<Vec<_>>(), wanted);
        let total = |sums: &[Sums]| sums.iter().map(|it| (it.east, it.north)).fold((0, 0), |a, b| (a.0 + b.0, a.1 + b.1));
        assert_eq!(total(&found), total(&once.profile().unwrap()));
        assert_eq!(once.profile(), once.blocks(width, 1));
    }
}

/// A lattice of any gas and chirality, with this many rows.
fn any(random: &mut Random, height: u32) -> Lattice {
    let (gas, chirality, width) = (random.gas(), random.chirality(), 1 + random.below(150) as u32);
    let (states, solid) = random.cells(gas, width as usize * height as usize);
    let lattice = Lattice::new(gas, chirality, (width, height), &states, &solid).unwrap();
    lattice.at_generation(random.below(1_000_000_000_001)).unwrap()
}

#[test]
fn strips_are_the_whole() {
    let mut random = Random(4);
    for threads in 1..10 {
        let height = 60 + random.below(500) as u32;
        let mut one = any(&mut random, height);
        let mut many = one.clone();
        for generations in [random.below(9), random.below(90)] {
            one.run(generations).unwrap();
            many.run_by(threads, generations).unwrap();
            assert!(one == many, "{threads} threads, {:?}, {generations} generations", one.size());
        }
    }
}

#[test]
fn a_run_goes_on_where_it_was_kept() {
    let mut random = Random(5);
    for _ in 0..50 {
        let mut whole = any(&mut random, 9);
        whole.run(random.below(9)).unwrap();
        let (size, states, solid) = (whole.size(), whole.states(), whole.solid());
        let mut rest = Lattice::new(whole.gas(), whole.chirality(), size, &states, &solid).unwrap();
        if whole.generation() > 1_000_000_000_000 {
            continue;
        }
        rest = rest.at_generation(whole.generation()).unwrap();
        assert_eq!(rest, whole);
        rest.run(20).unwrap();
        whole.run(20).unwrap();
        assert_eq!(rest, whole);
    }
}

/// Backwards a run meets the same lattices, reversed, and at its start the states that it had.
#[test]
fn a_reversed_run_leads_back() {
    let mut random = Random(6);
    let mut refused = 0;
    for _ in 0..60 {
        let start = any(&mut random, 12);
        if start.clone().reverse() == Err(Error::Seeded) {
            assert!(matches!(start.chirality(), Chirality::Seeded(_)) && start.gas() != Gas::Hpp);
            refused += 1;
            continue;
        }
        let (there, back) = (random.below(9), random.below(9));
        let mut middle = start.clone();
        middle.run(there).unwrap();
        let mut end = middle.clone();
        end.run(back).unwrap();
        end.reverse().unwrap();
        end.run(back).unwrap();
        middle.reverse().unwrap();
        assert_eq!((end.states(), end.chirality()), (middle.states(), middle.chirality()));
        end.run(there).unwrap();
        end.reverse().unwrap();
        assert_eq!((end.states(), end.chirality()), (start.states(), start.chirality()));
    }
    assert!(refused > 0);
    let mut pairs = Lattice::new(Gas::FhpRest, Chirality::Left, (3, 1), &[1, 9, 0x41], &[0; 3]).unwrap();
    pairs.reverse().unwrap();
    // To the west; a pair to the left and its mirror, which is itself; and one with one at rest makes two, to the west.
    assert_eq!((pairs.states(), pairs.chirality()), (vec![8, 0x12, 0x14], Chirality::Right));
}

#[cfg(feature = "scenes")]
#[test]
fn a_scene_is_the_lattice() {
    let mut random = Random(7);
    let mut seeds = 0;
    for _ in 0..100 {
        let height = 1 + random.below(12) as u32;
        let lattice = any(&mut random, height);
        match lattice.chirality() {
            Chirality::Seeded(seed) if seed >> 63 == 1 => {
                assert_eq!(lattice.scene(), Err(Error::Seed(seed)));
                seeds += 1;
            }
            _ => assert_eq!(Lattice::read(&lattice.scene().unwrap()), Ok(lattice)),
        }
    }
    assert!(seeds > 0);
    let area = "gas = \"fhp-rest\"\nversion = 2\ngeneration = 8\nwidth = 70\nheight = 2\nsolid = [[64, 1, 6, 1]]\nparticles = [[69, 0, 65]]\n";
    let lattice = Lattice::read(area).unwrap();
    assert_eq!((lattice.gas(), lattice.chirality(), lattice.size()), (Gas::FhpRest, Chirality::Seeded(0), (70, 2)));
    assert_eq!((lattice.generation(), lattice.states()[69], lattice.solid()[70..].to_vec()), (8, 65, [vec![0; 64], vec![1; 6]].concat()));
    for (text, line) in [
        ("gas", "scene: not TOML"),
        ("gas = \"hpp\"", "scene: missing key"),
        ("gas = 1\ncells = [\"..\"]", "scene: wrong type"),
        ("gas = \"hpp\"\ncells = [\"..\", \"....\"]", "scene: row 1 has a wrong length"),
        ("gas = \"hpp\"\ncells = [\"..10\"]", "scene: row 0 cell 1 is not a cell"),
    ] {
        let found = Lattice::read(text).unwrap_err();
        assert!(matches!(found, Error::Scene(_)));
        assert_eq!(found.to_string(), line);
    }
    let mut last = lattice.at_generation(1_000_000_000_000).unwrap();
    last.run(1).unwrap();
    assert_eq!(last.scene(), Err(Error::Generation(1_000_000_000_001)));
}

#[test]
fn what_is_unlawful_has_a_name() {
    let new = |size, states: &[u8], solid: &[u8]| Lattice::new(Gas::Hpp, Chirality::Left, size, states, solid);
    assert_eq!(new((0, 3), &[], &[]), Err(Error::Size(0, 3)));
    assert_eq!(new((65537, 1), &[], &[]), Err(Error::Size(65537, 1)));
    assert_eq!(new((2, 2), &[0; 3], &[0; 4]), Err(Error::Length("states", 3, 4)));
    assert_eq!(new((2, 2), &[0; 4], &[0; 5]), Err(Error::Length("solid", 5, 4)));
    assert_eq!(new((2, 2), &[0, 16, 0, 0], &[0; 4]), Err(Error::Value("states")));
    assert_eq!(new((2, 2), &[0; 4], &[0, 0, 2, 0]), Err(Error::Value("solid")));
    assert_eq!(new((2, 2), &[0, 0, 0, 3], &[0, 0, 0, 1]), Err(Error::Particle(1)));
    let mut lattice = new((2, 2), &[1; 4], &[0; 4]).unwrap();
    let before = lattice.clone();
    lattice.run(3).unwrap();
    assert_eq!(lattice.run(u64::MAX), Err(Error::Generations(u64::MAX)));
    assert_eq!(lattice.run_by(9, u64::MAX - 2), Err(Error::Generations(u64::MAX - 2)));
    assert_eq!(lattice.run_by(0, 1), Err(Error::Threads));
    assert_eq!(lattice.generation(), 3);
    assert_eq!(lattice.at_generation(1_000_000_000_001), Err(Error::Generation(1_000_000_000_001)));
    assert_eq!(before.blocks(0, 2), Err(Error::Block(0, 2)));
    let names: BTreeSet<String> = [Error::Size(0, 1), Error::Value("solid"), Error::Memory].map(|it| it.to_string()).into();
    assert_eq!(names.len(), 3);
}

/// Any arguments: each call returns, and what it returns is of the right size.
#[test]
fn nothing_panics() {
    let mut random = Random(3);
    let (mut lawful, mut refused) = (0, 0);
    for _ in 0..rounds() {
        let mut side = || if random.below(9) == 0 { random.of(&[0, 65536, 65537, u32::MAX]) } else { random.below(200) as u32 };
        let (width, height) = (side(), side());
        let number = (u64::from(width) * u64::from(height)).min(50_000) as usize;
        let number = if random.below(9) == 0 { random.below(300) as usize } else { number };
        let gas = random.gas();
        let (mut states, mut solid) = random.cells(gas, number);
        for bytes in [&mut states, &mut solid] {
            if random.below(9) == 0 && !bytes.is_empty() {
                let i = random.below(bytes.len() as u64) as usize;
                bytes[i] = random.next() as u8;
            }
        }
        let chirality = random.chirality();
        let made = if random.below(2) == 0 {
            Lattice::new(gas, chirality, (width, height), &states, &solid)
        } else {
            let n = width.div_ceil(64) as usize * height as usize;
            let wrong = usize::from(random.below(9) == 0);
            let n = n.min(20_000) + wrong;
            let planes = (0..n * gas.directions() as usize).map(|_| random.next() & random.next());
            Lattice::from_planes(gas, chirality, (width, height), planes.collect(), vec![0; n])
        };
        let Ok(mut lattice) = made else {
            refused += 1;
            assert!(!made.unwrap_err().to_string().is_empty());
            continue;
        };
        lawful += 1;
        let particles: i64 = lattice.profile().unwrap().iter().map(|it| it.particles).sum();
        let generations = 1 + random.below(8);
        lattice.run(generations).unwrap();
        lattice.run(u64::MAX - random.below(generations)).unwrap_err();
        let (threads, runs_back) = (random.below(4) as usize, gas == Gas::Hpp || !matches!(chirality, Chirality::Seeded(_)));
        assert_eq!(lattice.run_by(threads, random.below(3)).is_ok(), threads > 0);
        assert_eq!(lattice.reverse().is_ok(), runs_back);
        let (w, h) = (random.of(&[0, 1, 7, u32::MAX]), random.of(&[0, 1, 3, u32::MAX]));
        if let Ok(blocks) = lattice.blocks(w, h) {
            assert_eq!(blocks.iter().map(|it| it.particles).sum::<i64>(), particles);
        } else {
            assert!(w == 0 || h == 0);
        }
        let after: u32 = lattice.states().iter().map(|state| state.count_ones()).sum();
        assert_eq!(i64::from(after), particles);
    }
    assert!(lawful > 0 && refused > 0);
}

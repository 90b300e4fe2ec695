#!/bin/bash
# Makes the crate fhpgas and tries it as it is handed out: its tests, also with random arguments, its documents, its package, and from a new
# project that forbids unsafe code, which prints the cells that the program prints. ROUNDS says how many random arguments. Ends with the counts.
. "$(dirname "$0")/../lib/try.sh"
program=${FHPGAS:-out/checked/fhpgas}
crate=$PWD/out/crate
plain/workspace.py "$crate" || exit 1
offline=$([ ! -e "$crate/.cargo" ] || echo --offline)
# cargo_in FOLDER WORDS..: silent unless it fails
cargo_in() { (cd "$1" && cargo "$2" --quiet ${offline:+"$offline"} "${@:3}") > "$room/told" 2>&1 || { cat "$room/told" && false; }; }

CARGO_PROFILE_DEV_OPT_LEVEL=0 try 'its tests pass' cargo_in "$crate" test --features scenes # optimizing would take longer than they do
try 'its program compiles' cargo_in "$crate" check --bins --features program # what they become was tried before
try 'its documents are made' cargo_in "$crate" doc --no-deps --features scenes
try 'without a warning' [ ! -s "$room/told" ]
if cargo clippy --version > /dev/null 2>&1; then try 'clippy has nothing to say' cargo_in "$crate" clippy --all-targets --features scenes -- -Dwarnings; else leave_out 'clippy'; fi
rm -rf "$crate/target/package"
try 'its package is whole' cargo_in "$crate" package --allow-dirty --no-verify
mkdir "$room/packed" && tar -xzf "$crate"/target/package/fhpgas-*.crate -C "$room/packed" --strip-components=1
try 'unsafe code is in the shim alone' [ -z "$(grep -rlwE 'unsafe' "$room/packed/src" | grep -vE 'src/shim/|src/lib.rs$')" ]
try 'and not in the front' [ -z "$(grep -v '^ *//' "$room/packed/src/lib.rs" | grep -w unsafe)" ]

mkdir -p "$room/new/src/bin"
[ ! -e "$crate/.cargo" ] || cp -r "$crate/.cargo" "$room/new"
printf '[package]\nname = "new"\nversion = "0.1.0"\nedition = "2024"\n' > "$room/new/Cargo.toml"
cat > "$room/new/src/main.rs" << 'END'
#![forbid(unsafe_code)]
use fhpgas::{Chirality, Gas, Lattice};

/// The lattice of a gas in a scene that is a map of 24 columns, some generations later, as the program prints it.
fn main() -> Result<(), fhpgas::Error> {
    let [gas, generations] = [1, 2].map(|n| std::env::args().nth(n).unwrap());
    let gas = [Gas::Fhp1, Gas::Hpp, Gas::FhpRest][["fhp1", "hpp", "fhp-rest"].iter().position(|name| *name == gas).unwrap()];
    let mut states: Vec<u8> = (0..24 * 10).map(|i| (i * 37 % (1 << gas.directions())) as u8).collect();
    let solid: Vec<u8> = (0..24 * 10).map(|i| u8::from(i % 31 == 5)).collect();
    states.iter_mut().zip(&solid).for_each(|(state, solid)| *state *= 1 - solid);
    let mut lattice = Lattice::new(gas, Chirality::Seeded(11), (24, 10), &states, &solid)?;
    lattice.run(generations.parse().unwrap())?;
    for (row, solid) in lattice.states().chunks(24).zip(solid.chunks(24)) {
        let cell = |(state, solid): (&u8, &u8)| match (state, solid) {
            (_, 1) => "##".to_string(),
            (0, _) => "..".to_string(),
            (state, _) => format!("{state:02x}"),
        };
        println!("{}", row.iter().zip(solid).map(cell).collect::<String>());
    }
    Ok(())
}
END
cat > "$room/new/src/bin/travel.rs" << 'END'
#![forbid(unsafe_code)]
use fhpgas::Lattice;
use std::io::Read;

/// Prints the scene of the lattice on standard input after what the words say.
fn main() -> Result<(), Box<dyn std::error::Error>> {
    let mut scene = String::new();
    std::io::stdin().read_to_string(&mut scene)?;
    let mut lattice = Lattice::read(&scene)?;
    for word in std::env::args().skip(1) {
        match word.split_once('=') {
            Some(("run", generations)) => lattice.run(generations.parse()?)?,
            Some(("by_three", generations)) => lattice.run_by(3, generations.parse()?)?,
            Some(("at", generation)) => lattice = lattice.at_generation(generation.parse()?)?,
            _ => lattice.reverse()?,
        }
    }
    print!("{}", lattice.scene()?);
    Ok(())
}
END
cargo_in "$room/new" add --path "$room/packed" --features scenes
try 'a new project takes it' cargo_in "$room/new" build
new=$room/new/target/debug/new travel=$room/new/target/debug/travel
python=$(tests/lib/needs.py | sed -n 1p)
export FHPGAS=$program PYTHONPATH=$PWD/python # of the package
# same WHAT SCENE OTHER GENERATIONS: whether a scene has the cells of the other after so many generations, by the program
same() { try "$1" diff <("$program" run --generations 0 < "$2") <("$program" run --generations "$4" < "$3"); }
for gas in fhp1 hpp fhp-rest; do
    { printf 'gas = "%s"\nseed = 11\ncells = [\n' $gas && "$new" $gas 0 | sed 's/.*/"&",/' && echo ']'; } > "$room/scene.toml"
    for generations in 0 1 2 50 333; do
        try "its cells of generation $generations of $gas are the program's" \
            diff <("$new" $gas $generations) <("$program" run --generations $generations < "$room/scene.toml" | tail -n +2)
    done
    printf 'gas = "%s"\nseed = 11\nwidth = 100\nheight = 300\nrate = 300\nsolid = [[9, 60, 30, 90]]\n' $gas > "$room/tall.toml"
    "$travel" by_three=77 < "$room/tall.toml" > "$room/late.toml"
    same "strips of $gas are the program's" "$room/late.toml" "$room/tall.toml" 77
    sed 's/^seed.*/chirality = "left"/' "$room/tall.toml" > "$room/left.toml"
    "$travel" run=50 reverse run=50 reverse at=0 < "$room/left.toml" > "$room/back.toml"
    same "a reversed run of $gas leads back" "$room/back.toml" "$room/left.toml" 0
    if "$python" -c 'import fhpgas; fhpgas.Lattice([[1]]).run(1)' 2> "$room/told"; then
        "$python" -c 'import fhpgas, pathlib, sys; load = lambda at: fhpgas.Lattice.load(pathlib.Path(at))
load(sys.argv[1]).run(23).save(sys.argv[2])' "$room/late.toml" "$room/later.toml"
        "$travel" run=33 < "$room/later.toml" > "$room/last.toml"
        same "$gas travels to the package and back" "$room/last.toml" "$room/tall.toml" 133
    else
        leave_out "the package: $(tail -n 1 "$room/told")"
    fi
done
tell

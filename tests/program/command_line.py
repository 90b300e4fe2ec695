"""Runs the built program on the cases of tables: words, scenes and streams of every kind, with what
it must print, on standard output and on standard error, and the status that it must end with."""

import itertools
import re
import shutil
import subprocess

import examples
import needs
import pytest

SOMETHING = re.compile(r"(?s).+")
EXAMPLES = examples.cases()

# What `check` reads next to a scene that is refused, and the lines that refuse it.
SYNTAX, UNKNOWN_KEY, BOTH_FORMS, MISSING, WRONG_TYPE, RANGE = (
    f"scene: {reason}"
    for reason in "not TOML|unknown key|both forms|missing key|wrong type|out of range".split("|")
)
STAGES, CAPACITY = "plan: stages must be 1 to 64", "plan: capacity must be 1 to 1024"
GENERATIONS = "plan: generations must be 0 to 1000000"
THREADS = "plan: threads must be 1 to the number of stages"
PASSES = "replay: the plan needs more than one pass"

DRIFT = 'gas = "fhp1"\nchirality = "left"\ncells = ["........", "......01", "........"]\n'
DRIFTED = "generation 1 particles 1\n........\n01......\n........\n"
MAP = 'gas = "fhp1"\ncells = ["01"]\n'
AREA = 'gas = "fhp1"\nwidth = 4\nheight = 2\n'
STEPS = AREA + "solid = [[0, 0, 2, 1], [1, 0, 2, 2]]\n"
WIDE = 'gas = "fhp1"\nwidth = 4096\nheight = 512\n'

# What the program is refused as usage, with status 2.
USAGE = (
    "|run|dance --generations 1|run --generations|run --generations -1|"
    "run --generations 1 --generations 1|run --generations 1 --capacity many|"
    "run --generations 1 --threads|run --generations 1 --threads 1 --threads 2|"
    "replay --generations 1 --threads 1|check --generations 1|"
    "coarse --generations 1 --block-width 2|replay 0 1|replay --generations 18446744073709551616|"
    "replay --generations 1 0 feeder|replay --generations 1 -- -1|run extra --generations 1|"
    "run -- --generations 1"
).split("|")
OPTIONS = dict.fromkeys(
    "--generations --stages --capacity --threads --block-width --block-height".split(), "1"
)
NO_NUMBERS = ["", *" 1|-1|1e3|0x10|1.0|one|99999999999999999999".split("|")]


def taken_up_to(most, refusal):
    """The limits of an option that takes 1 to a number, and reads numbers of 32 bits."""
    refused = dict.fromkeys([0, most + 1, 2**32 - 1], refusal)
    return refused | {1: None, most: None, 2**32: USAGE}


# The limits of the options: None if a value is taken, a line if it is refused, and USAGE if it is not such a number.
LIMITS = {
    "stages": taken_up_to(64, STAGES),
    "capacity": taken_up_to(1024, CAPACITY),
    "threads": taken_up_to(64, THREADS) | {8: None},
    "generations": {0: None, 10**6: None, 2**64: USAGE}
    | dict.fromkeys([10**6 + 1, 2**64 - 1], GENERATIONS),
}
LIMITS |= dict.fromkeys(
    ("block-width", "block-height"), {0: USAGE, 1: None, 4096: None, 4097: USAGE}
)

# Words that the program reads with the scene DRIFT: the status and what it prints.
RUNS = """
    --generations 1
    --generations=1
    --generations 0001
    --generations +1
    --capacity 1 --stages=64 --generations 1
    --threads=3 --stages 5 --capacity 1 --generations 1
    --threads 2 --generations 1
    --threads 2 --stages 2 --generations 1
    --threads 1 --stages 2 --generations 1
    --threads 1 --capacity 1 --generations 1
"""
STILL = DRIFTED.replace("generation 1", "generation 0").replace("01......", "......01")
WORDS = [
    *((f"run {words}", 0, DRIFTED, "") for words in RUNS.strip().split("\n")),
    # a turn is a number of 32 bits, and a turn of a missing member changes nothing
    ("replay --generations 0 4294967295", 0, f"done\n{STILL}", ""),
    ("replay --generations 0 4294967296", 2, "", SOMETHING),
    *((f"{command} --help", 0, SOMETHING, "") for command in " run check coarse replay".split(" ")),
    ("coars --generations 1", 2, "", re.compile(r"(?s).*'coarse'.*")),
    ("run --generation 1", 2, "", re.compile(r"(?s).*--generations.*")),
]

# What it refuses with that scene: stages, then places, generations, passes, and last threads.
REFUSED = {
    STAGES: "run --generations 1 --threads 0 --stages 65|run --generations 0 --stages 65 --capacity 1|"
    "run --generations 0 --stages 0 --capacity 0",
    CAPACITY: "run --generations 1000001 --stages 1 --capacity 0|replay --generations 2 --stages 1 --capacity 0|"
    "run --generations 0 --stages 1 --capacity 1025",
    GENERATIONS: "run --generations 1000001 --threads 0|run --generations 1000001 --stages 1 --capacity 1|"
    "coarse --generations 1000001 --block-width 1 --block-height 1 --threads 65|replay --generations 1000001",
    PASSES: "replay --generations 2 --stages 1",
    THREADS: "run --generations 1 --threads 5 --stages 4|run --generations 1 --stages 3 --threads 4",
}

# Lines of bash, run in a folder with the scenes `drift` and `wide`: the status and what is printed.
FAILED = re.compile(r"write: failed after \d+ bytes\n")
PIPED = "./fhpgas run --generations 0 < wide | head -c 10 > /dev/null; exit ${PIPESTATUS[0]}"
FULL = "(trap '' XFSZ; ulimit -f 1; ./fhpgas run --generations 0 < wide > cut); status=$?; wc -c < cut; exit $status"
LONGEST = r"(printf 'gas = \"hpp\"\nwidth = 3\n'; head -c 67108831 /dev/zero | tr '\0' '\n'; echo height = 4) | ./fhpgas check"
STREAMS = [
    ("./fhpgas run --generations 1 < drift > /dev/full", 4, "", "write: failed after 0 bytes\n"),
    ("./fhpgas run --generations 1 --stages 0 < drift > /dev/full", 1, "", STAGES + "\n"),
    ("./fhpgas replay --generations 2 --stages 1 < drift > /dev/full", 1, "", PASSES + "\n"),
    ("./fhpgas run --generations 1 < drift >&-", 4, "", "write: failed after 0 bytes\n"),
    ("./fhpgas run --generations 1 --stages 0 < drift 2>&-", 1, "", ""),
    ("./fhpgas run --generations 1 < drift 2>&-", 0, DRIFTED, ""),
    (PIPED, 4, "", FAILED),
    (FULL, 4, "1024\n", "write: failed after 1024 bytes\n"),
    ("./fhpgas run --generations 1 <&-", 1, "", "input: read failed\n"),
    ("./fhpgas run --generations 1 < .", 1, "", "input: read failed\n"),
    ("./fhpgas run --generations x < .", 2, "", SOMETHING),
    ("./fhpgas run --generations 1 $'\\xff' < drift", 2, "", SOMETHING),
    ("head -c 67108865 /dev/zero | ./fhpgas run --generations 1", 1, "", "input: too long\n"),
    (LONGEST, 0, "gas hpp width 3 height 4 solid 0 particles 0\n", ""),
]


def row_length(row):
    return f"scene: row {row} has a wrong length"


def bad_cell(row, column):
    return f"scene: row {row} cell {column} is not a cell"


# What refuses texts, None if they are scenes: texts as they are, which may have several faults, of which the first in the order counts;
TEXTS = {
    SYNTAX: [
        "gas = ",
        b"\xff",
        'gas = "fhp1"\nchirality = "left"\ncells = ["01"',
        'gas = "fhp1"\ngas.a = 1\ncells = ["01"]',
        "colour = 1\ngas = ",
        'gas = "fhp1"\ngas = "fhp1"',
    ],
    UNKNOWN_KEY: [MAP + "colour = 1", 'colour = 1\ncells = ["01"]\nwidth = 4'],
    BOTH_FORMS: ['cells = ["01"]\nwidth = 4', MAP + "width = 4"],
    MISSING: (
        '|[gas]\n|gas = "fhp1"|gas = "fhp1"\nchirality = "left"|gas = "fhp1"\nwidth = 4|'
        'gas = "fhp1"\nheight = 4|cells = 1|cells = ["01"]'
    ).split("|"),
    WRONG_TYPE: (
        MAP + 'seed = true|gas = "fhp1"\ncells = ["01", 1]|gas = 1\ncells = ["01"]|'
        'gas.a = 1\ncells = ["01"]|gas = "fhp2"\ncells = [1]'
    ).split("|"),
    RANGE: (
        MAP + 'chirality = "both"|gas = "fhp2"\ncells = ["010"]|gas = "fhp1"\ncells = []'
    ).split("|"),
    row_length(1): ['gas = "fhp1"\ncells = ["0101", "0g"]'],
    row_length(2): ['gas = "fhp1"\ncells = ["0g01", "0101", "01"]'],
    row_length(7): ['gas = "fhp1"\ncells = [' + '"..",' * 7 + '"....",]'],
    bad_cell(1, 0): ['gas = "fhp1"\ncells = ["01", "0g"]'],
    bad_cell(1, 1): ['gas = "fhp1"\ncells = ["0101", "010g", "0g01"]'],
    bad_cell(7, 12): ['gas = "fhp1"\ncells = [' + f'"{".." * 13}",' * 7 + f'"{".." * 12}0.",]'],
}
# the keys of an area;
AREAS = {
    None: ["solid = [[3, 0, 1, 2]]", STEPS + "rate = 1000", STEPS + "particles = [[0, 1, 63]]"],
    RANGE: [STEPS + "particles = [[1, 0, 1]]", STEPS + "particles = [[0, 1, 64]]"]
    + (
        "solid = [[3, 0, 2, 1]] | solid = [[0, 1, 1, 2]] | solid = [[0, 0, 0, 1]] | "
        "solid = [[0, -1, 1, 1]] | solid = [[0, 0, 9223372036854775807, 1]] | "
        "solid = [[9223372036854775807, 0, 9223372036854775807, 1]] | particles = [[4, 0, 1]] | "
        "particles = [[-1, 0, 1]] | particles = [[0, 2, 1]] | particles = [[0, 0, -1]] | seed = -1 | "
        "rate = -1 | rate = 1001"
    ).split(" | "),
    WRONG_TYPE: (
        "rate = 1.0 | [[solid]] | solid = [[0, 0, 1]] | solid = [[0, 0, 1, 1, 1]] | "
        "particles = [[0, 0, 1, 1]] | particles = [[0, 0]]"
    ).split(" | "),
    UNKNOWN_KEY: ["[x]"],
}
# and the cells of a row: two characters are a cell only if both are marks of one kind, or digits of a state that the gas has.
CELLS = {
    None: "hpp ##|hpp ..|hpp 0f|fhp1 3f|fhp-rest 7f",
    bad_cell(0, 0): "hpp #.|hpp .#|hpp 10|fhp1 40|fhp1 0A|fhp1 0g|fhp1 é|fhp-rest 80",
    bad_cell(0, 1): "hpp ..#0|hpp ##.0",
    row_length(0): "fhp1 é.|fhp1 010|fhp1 ",
}


def scenes():
    """The texts of the tables, and what refuses them."""
    for wanted, texts in TEXTS.items():
        yield from ((text, wanted) for text in texts)
    for wanted, texts in AREAS.items():
        yield from ((text if text.startswith("gas") else AREA + text, wanted) for text in texts)
    for wanted, rows in CELLS.items():
        for row in rows.split("|"):
            yield 'gas = "{}"\ncells = ["{}"]'.format(*row.split(" ")), wanted


def usage():
    yield from (words.split() for words in USAGE)
    for option, value in itertools.product(OPTIONS, NO_NUMBERS):
        yield ["coarse", *itertools.chain(*({**OPTIONS, option: value}).items())]
    whole = ["coarse", *itertools.chain(*OPTIONS.items())]
    for option in OPTIONS:
        others = [word for pair in OPTIONS.items() if pair[0] != option for word in pair]
        yield [*whole, option, "1"]
        yield from (["coarse", *others, word] for word in (option, f"{option}="))


def drifted(generation):
    """The cells of DRIFT, whose particle moves a column to the east per generation."""
    row = ["..", "..", "..", ".."]
    row[(3 + generation) % 4] = "01"
    return f"generation {generation} particles 1\n........\n{''.join(row)}\n........\n"


def blocks(width, height):
    """The table of DRIFT after one generation, when its particle is at (0, 1)."""
    yield "  col   row    fluid particles         px         py\n"
    rows, columns = enumerate(range(0, 3, height)), enumerate(range(0, 4, width))
    for (row, top), (column, left) in itertools.product(rows, columns):
        fluid = min(width, 4 - left) * min(height, 3 - top)
        held = left == 0 and top <= 1 < top + height
        yield f"{column:5} {row:5} {fluid:8} {held:9} {2 * held:10} {0:10}\n"


def of_limits():
    for option, limits in LIMITS.items():
        of_blocks = {"block-width": 2, "block-height": 2} if option.startswith("block") else {}
        # four threads take minutes for a million generations of three rows where others want processors
        alone = {"threads": 1} if option == "generations" else {}
        for number, refusal in limits.items():
            values = {"generations": 1, **of_blocks, **alone, option: number}
            words = [f"--{name}={value}" for name, value in values.items()]
            words = ["coarse" if of_blocks else "run", *words]
            if refusal is USAGE:
                yield words, 2, "", SOMETHING
            elif refusal:
                yield words, 1, "", refusal + "\n"
            elif of_blocks:
                table = blocks(values["block-width"], values["block-height"])
                yield words, 0, "".join(table), ""
            else:
                yield words, 0, drifted(values["generations"]), ""


def many_turns():
    """A hundred thousand turns on a column of cells. All of them count: without the last one a row is missing."""
    rows = 25_050
    scene = f'version = 2\ngas = "fhp1"\nchirality = "left"\nwidth = 1\nheight = {rows}\nparticles = [[0, {rows - 1}, 1]]\n'
    turns = "0 1 0 1 1 0 1 " + "0 0 1 1 " * (rows - 3) + "0 1 0 1 0"
    words = ["replay", "--generations", "1", "--stages", "1", "--capacity", "1", *turns.split()]
    belts = f"belt 0 put {rows} taken {rows}\nbelt 1 put {rows} taken "
    cells = "generation 1 particles 1\n" + "..\n" * (rows - 1) + "01\n"
    yield words, scene, f"done\n{belts}{rows}\n{cells}"
    yield words[:-1], scene, f"not done\n{belts}{rows - 1}\n"


def on_threads(words):
    """The words, and of a run also with its stages on one thread, on two, on three, and each on its own; if they give no stages, also with
    two and belts of one place."""
    yield words
    if words[0] in ("run", "coarse"):
        given = dict(zip(words[1::2], words[2::2]))
        stages = given.get("--stages", "4")
        fewer = (threads for threads in "123" if int(threads) < int(stages))
        yield from ([*words, "--threads", threads] for threads in fewer)
        yield [*words, *([] if "--stages" in given else ["--stages", stages]), "--threads", stages]
        if "--stages" not in given:
            short = [*words, "--stages", "2", "--capacity", "1", "--threads"]
            yield from ([*short, threads] for threads in "12")


def lone_particles():
    """A particle that moves east from the last of the most columns to the first."""
    area = 'version = 2\ngas = "fhp1"\nchirality = "left"\nwidth = 65536\nheight = 1\nparticles = [[65535, 0, 1]]\n'
    for generation, row in ("0", ".." * 65535 + "01"), ("1", "01" + ".." * 65535):
        for words in on_threads(["run", "--generations", generation]):
            yield words, area, f"generation {generation} particles 1\n{row}\n"


def is_like(came, wanted):
    return bool(wanted.fullmatch(came)) if isinstance(wanted, re.Pattern) else came == wanted


def said(words, text="", room=None):
    """The status, and what was printed on standard output and on standard error."""
    given = text if isinstance(text, bytes) else text.encode()
    ran = subprocess.run(words, input=given, capture_output=True, timeout=needs.PATIENCE, cwd=room)
    return ran.returncode, ran.stdout.decode(errors="replace"), ran.stderr.decode(errors="replace")


def compare(came, wanted):
    assert all(map(is_like, came, wanted)), f"{wanted!r:.300} was expected, and came {came!r:.300}"


@pytest.fixture
def check(program):
    """Compares the program's answer with a status and what it prints on both streams."""
    return lambda words, text, *wanted: compare(said([program, *words], text), wanted)


def each(names, cases):
    """Has a test run for each of the cases, which its first value names."""
    cases = [*cases]
    firsts = [case[0] if "," in names else case for case in cases]
    told = (" ".join(it) if isinstance(it, list) else str(it) for it in firsts)
    return pytest.mark.parametrize(names, cases, ids=[name[:70] for name in told])


@each("words", usage())
def test_usage(check, words):
    check(words, DRIFT, 2, "", SOMETHING)


@each("words, status, out, err", WORDS)
def test_words(check, words, status, out, err):
    check(words.split(), DRIFT, status, out, err)


@each("words, line", ((words, line) for line, all in REFUSED.items() for words in all.split("|")))
def test_refused_plan(check, words, line):
    check(words.split(), DRIFT, 1, "", f"{line}\n")


@each("words, status, out, err", of_limits())
def test_limits(check, words, status, out, err):
    check(words, DRIFT, status, out, err)


@each("text, line", scenes())
def test_check(check, text, line):
    check(["check"], text, *((1, "", f"{line}\n") if line else (0, re.compile("gas .*\n"), "")))


@each("words, scene, out", itertools.chain(many_turns(), lone_particles()))
def test_lone_particle(check, words, scene, out):
    check(words, scene, 0, out, "")


@pytest.mark.parametrize(
    "name, words",
    [(name, words) for name, case in EXAMPLES.items() for words in on_threads(case[0])],
    ids=lambda value: value if isinstance(value, str) else " ".join(value)[:70],
)
def test_example(check, name, words):
    _, scene, wanted = EXAMPLES[name]
    check(words, scene, 0, wanted, "")


def test_version(check, program):
    """The kit is what README names and what proves the program, if it is here. What plain Rust builds says so instead of the kit."""
    cited = re.search("^version: (.*)$", (needs.ROOT / "CITATION.cff").read_text(), re.M)[1]
    kit = re.search(r"`(rattle-kit-[^`]*)`", (needs.ROOT / "README.md").read_text())[1]
    here = needs.printed(["rt", "version"]).decode().strip() if shutil.which("rt") else kit
    assert re.sub(r"^(rattle-kit-\d+)[a-z]* ", r"\1 ", here) == kit
    is_plain = program.parent.name in ("plain", "checked")
    build = r"plain Rust, .+, not proved" if is_plain else re.escape(kit)
    check(["--version"], "", 0, re.compile(rf"fhpgas {re.escape(cited)} \({build}\)\n"), "")


@each("line, status, out, err", STREAMS)
def test_streams(program, tmp_path, line, status, out, err):
    for name, text in ("drift", DRIFT), ("wide", WIDE):
        (tmp_path / name).write_text(text)
    command = line.replace("./fhpgas", str(program))
    compare(said(["bash", "-c", command], room=tmp_path), (status, out, err))

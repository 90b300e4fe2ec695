"""Compares the built program's answer to large texts of many kinds, under a small stack, with
docs/FORMATS.md. Then the largest area, and requests of many passes, turns and blocks, whose answers
are known. If memory is there, none may be refused. --mebibytes M makes larger texts. The program
reads at most 64."""

import itertools
import random
import resource
import signal
import subprocess

import needs
import pytest

pytestmark = pytest.mark.alone
STACK = 256  # KiB
BLOCK = 1 << 16
SIDE, MOST_SIDE = 4096, 65536
LARGEST, LARGEST_MAP = "the largest area", "the largest map"
# What Rust's reader of TOML calls itself for, once more at each level, as the proved program's does not: plain/README.md says so.
TOO_DEEP = "nested arrays", "nested inline tables", "nested arrays that never end", "one dotted key"
OVERFLOW = f"status {-signal.SIGSEGV}: "
FULL = 'version = 2\ngas = "fhp1"\nwidth = %d\nheight = %d\nrate = 1000\n'  # and it stays full
AREA = f'gas = "fhp1"\nwidth = {SIDE}\nheight = {SIDE}\n'
SHOWN = f"gas fhp1 width {SIDE} height {SIDE} solid %d particles %d"
WRONG_TYPE, UNKNOWN, SYNTAX, RANGE, MISSING = (
    f"scene: {reason}"
    for reason in ("wrong type", "unknown key", "not TOML", "out of range", "missing key")
)


def repeated(before, item, after, size):
    """The text before, the items that have room in the size, and the text after, in pieces."""
    count, most = (size - len(before) - len(after)) // len(item), max(BLOCK // len(item), 1)
    return [before] + [item * most] * (count // most) + [item * (count % most), after]


def rectangle(rng):
    x, y = rng.randrange(SIDE), rng.randrange(SIDE)
    return f"[{x},{y},{rng.randint(1, SIDE - x)},{rng.randint(1, SIDE - y)}],"


def areas(size):
    """Areas with as many particles and rectangles as have room."""
    at_random = random.Random(1)
    column = "".join(f"[{SIDE // 2 + y % 2048},{y},1]," for y in range(SIDE))
    wall = AREA + f"solid = [[0,0,1,{SIDE}]]\nparticles = ["
    several = "".join(rectangle(at_random) for _ in range(2000))
    half = repeated(AREA + "solid = [", f"[0,0,{SIDE // 2},{SIDE}],", "]\n", size // 2)
    wide = 'version = 2\ngas = "fhp1"\nwidth = 65536\nheight = 2\nrate = 1000\nsolid = ['
    yield "particles in a column of solid cells", repeated(wall, "[0,0,1],", "]\n", size), RANGE
    over = repeated(AREA + "solid = [[0,0,4096,4096],", several, "]\n", size)
    yield "rectangles at random", over, SHOWN % (SIDE * SIDE, 0)
    half += repeated("particles = [", column, "]\n", max(size // 2, 2 * len(column)))
    yield "half rectangles, half particles", half, SHOWN % (SIDE * SIDE // 2, SIDE)
    shown = "gas fhp1 width 65536 height 2 solid 131070 particles 12"
    across = repeated(wide, "[0,0,65535,2],", "]\n", size)
    yield "rectangles across the widest rows", across, shown


def maps(size):
    """Maps with as many rows as have room."""
    rows = min(SIDE, size // (2 * SIDE + 4))
    text = ['gas = "fhp1"\ncells = [\n'] + ['"' + "3f" * SIDE + '",\n'] * rows + ["]\n"]
    yield "a map", text, f"gas fhp1 width {SIDE} height {rows} solid 0 particles {6 * SIDE * rows}"
    wide = '"' + "##" * 65535 + '01",\n'
    for name, rows in ("a map of the widest rows", max(size // len(wide), 1)), (LARGEST_MAP, 511):
        text = ['version = 2\ngas = "fhp1"\ncells = [\n'] + [wide] * rows + ["]\n"]
        yield name, text, f"gas fhp1 width 65536 height {rows} solid {65535 * rows} particles {rows}"
    yield "empty arrays", repeated(AREA + "solid = [", "[],", "]\n", size), WRONG_TYPE
    yield "empty rows", repeated('gas = "fhp1"\ncells = [', '"",', "]\n", size), RANGE


def numbered(form, size):
    """Lines with the numbers from 0 on, in pieces, of about as many bytes."""
    number = max(size // len(form % 10**6), 1)
    for first in range(0, number, 10000):
        yield "".join(form % k for k in range(first, first + 10000))


def documents(size):
    """Texts that are hardly scenes: nested, never ended, with many keys, and with hardly any."""
    half = size // 2
    nested = repeated("cells = ", "[", "", half) + repeated("", "]", "\n", half)
    yield "nested arrays", nested, SYNTAX
    inline = repeated("cells = ", "{a=", "1", 3 * size // 4) + repeated("", "}", "\n", size // 4)
    yield "nested inline tables", inline, SYNTAX
    yield "nested arrays that never end", repeated("cells = ", "[", "", size), SYNTAX
    yield "one text", repeated('gas = "', "a", '"\ncells = []\n', size), RANGE
    yield "one text that never ends", repeated('gas = "', "a", "", size), SYNTAX
    yield "keys", numbered("k%d = 1\n", size), UNKNOWN
    yield "one key", repeated("", "k", " = 1\n", size), UNKNOWN
    yield "one key twice", repeated("", "k", " = 1\n", half) * 2, SYNTAX
    yield "one dotted key", repeated("", "k.", "k = 1\n", size), SYNTAX
    yield "tables", numbered("[t%d]\n", size), UNKNOWN
    yield "comments", repeated("", "#\n", "", size), MISSING
    yield "one comment", repeated("#", "a", "\n", size), MISSING
    yield "empty lines", repeated("", "\n", "", size), MISSING
    yield "bytes that are not UTF-8", [b"\xff" * min(size, BLOCK)] * (size // BLOCK), SYNTAX


def texts(size):
    """The texts as names, their pieces and what `check` must say of them."""
    yield from itertools.chain(areas(size), maps(size), documents(size))
    side = MOST_SIDE
    area = f'version = 2\ngas = "hpp"\nwidth = {side}\nheight = {side}\n'
    filled = "gas fhp1 width 5011 height 5003 solid 0 particles 150420198"
    yield "a large area that is filled", [FULL % (5011, 5003)], filled
    yield LARGEST, [area], f"gas hpp width {side} height {side} solid 0 particles 0"


def answer(program, path):
    """What the program prints for the text in the file, and its status if that is none of a scene."""
    words = ["sh", "-c", f'ulimit -s {STACK}; exec "$0" check', program]
    with open(path, "rb") as text:
        ran = subprocess.run(words, stdin=text, stdout=subprocess.PIPE, stderr=subprocess.STDOUT)
    line = ran.stdout.decode(errors="replace").strip()
    return line if ran.returncode in (0, 1) else f"status {ran.returncode}: {line}"


@pytest.mark.parametrize("name", [name for name, *_ in texts(1 << 16)])
def test_text(program, memory, pytestconfig, tmp_path, name):
    size = int(pytestconfig.getoption("mebibytes") * (1 << 20))
    if name == LARGEST:
        memory(4)
    pieces, expected = next(found for it, *found in texts(size) if it == name)
    with open(tmp_path / "scene", "wb") as file:
        for piece in pieces:
            file.write(piece if isinstance(piece, bytes) else piece.encode())
    if name in TOO_DEEP and b"not proved" in needs.printed([program, "--version"]):
        expected = OVERFLOW
    assert answer(program, file.name) == expected


def passes():
    """A lone particle moves a cell per generation, and each pass of one worker makes one."""
    area = 'gas = "hpp"\nwidth = 7\nheight = 1\nparticles = [[0, 0, 1]]\n'
    moved = f"generation 600001 particles 1\n{'..' * (600_001 % 7)}01{'..' * (6 - 600_001 % 7)}\n"
    return "run --generations 600001 --stages 1", area, moved


def turns():
    """A member makes at most one event in a turn, and each of the two has two events per row."""
    rows, words = 40_000, "replay --generations 1 --stages 1" + " 0 1" * 100_000
    belts = "".join(f"belt {belt} put {rows} taken {rows}\n" for belt in range(2))
    cells = f"generation 1 particles {6 * rows}\n" + "3f\n" * rows
    return words, FULL % (1, rows), f"done\n{belts}{cells}"


def blocks():
    """All 2,102,491 blocks of a cell are alike."""
    columns = [f"{x:5} " for x in range(1453)]
    rows = (f"{y:5} {1:8} {6:9} {0:10} {0:10}\n" for y in range(1447))
    lines = "".join(column + row for row in rows for column in columns)
    head = "  col   row    fluid particles         px         py\n"
    words = "coarse --generations 2 --block-width 1 --block-height 1"
    return words, FULL % (1453, 1447), head + lines


@pytest.mark.parametrize("large", [passes, turns, blocks])
def test_request(program, memory, large):
    memory(2)
    words, scene, expected = large()
    room = lambda: resource.setrlimit(resource.RLIMIT_STACK, (1 << 26, 1 << 26))  # for words
    ours = needs.printed([program, *words.split()], scene.encode(), preexec_fn=room)
    is_so = ours == expected.encode()
    assert is_so  # and pytest shows no difference of so many lines

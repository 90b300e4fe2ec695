"""Runs the built program on random, mutated and spliced scenes, and compares its output with a
second reading of the texts (second_reader.py): the line that refuses a text, or the line of `check`
and the printed cells. If a text is refused, `explain` must say the same line and a reason. A text
that may be TOML 1.1, which the second reader does not read, must be read or refused. --scenes N
reads that many random ones."""

import itertools
import random
import re
import subprocess

import needs
import pytest
import second_reader
from fhpgas import refusals

MOST_CELLS = 1000
PART = 300  # random scenes that are read together
UNSURE = "unsure"
NUMBERS = (
    '0|1|-1|4|63|64|1000|1001|4096|4097|9223372036854775807|9223372036854775808|1.0|true|"1"|'
    "1979-05-27|[]|[1, 2]|{ a = 1 }|0x10|1_000|inf"
).split("|")
GASES = [f'"{gas}"' for gas in second_reader.STATES]
CHIRALITIES = ['"left"', '"right"', '"seeded"']
TEXTS = [*GASES, '"fhp2"', *CHIRALITIES, '""', "1", "'fhp1'", '["fhp1"]']
EDGES = (
    "9223372036854775806|-9223372036854775807|-9223372036854775808|-9223372036854775809|"
    "18446744073709551615|18446744073709551616|4294967296|-4294967295|0x7fffffffffffffff|"
    "0x8000000000000000|0o777777777777777777777|0o1000000000000000000000|-0|+1|0b1|1e0|1.5|-1.0|"
    "nan|-inf|false|07:32:00|1979-05-27T07:32:00Z"
).split("|")
GRAMMAR = (
    "[|]|[[|]]|{|}|=|,|.|#|\n|\r\n|\r|\t| |\"|'|\"\"\"|'''|\\|\\n|\\u00e9|\\U0001F600|\\x41|\\e|"
    '\ufeff|\0|\x1f|\x7f|é|Ж|中|０|[a]|[[a]]|[gas]|[[solid]]|a.b|gas.a|"gas"|\'gas\'|"\\u0067as"|'
    "true|false|+1|-0|+0|01|1_0|1__0|_1|0x3F|0o17|0b11|-0x1|1e3|1.|.5|1.5|-1.5e-3|nan|-inf|"
    "1979-05-27|07:32:00|07:32|1979-05-27T07:32:00Z|1979-05-27 07:32:00.5+01:00|1979-02-30|"
    "9223372036854775807|9223372036854775808|-9223372036854775808|-9223372036854775809|"
    "99999999999999999999999999|..|##|3f|40|3F"
).split("|")
GRAMMAR[-5:-5] = ["[" * 70 + "]" * 70, "[" * 300 + "]" * 300, "{a=" * 60 + "1" + "}" * 60]
SIDES = ["65535", "65536", "65537"]
GENERATIONS = "0 1 10 -1 999999999999 1000000000000 1000000000001".split()
KEYS = "version generation gas chirality seed cells width height solid rate particles colour gas.a".split()


def number(rng):
    return rng.choice(NUMBERS) if rng.random() < 0.2 else str(rng.randint(0, 6))


def numbers(rng, count):
    count += rng.choice([0] * 12 + [-1, 1])
    return "[" + ", ".join(number(rng) for _ in range(count)) + "]"


def cells(rng):
    width = rng.randint(0, 4)
    pairs = ["..", "00", "##", "01", "3f", "09", "0f", "40", "0A", "é", ".#", "0"]
    rows = [
        "".join(rng.choice(pairs[: 7 if rng.random() < 0.9 else 12]) for _ in range(width))
        for _ in range(rng.randint(0, 4))
    ]
    return "[" + ", ".join(f'"{row}"' for row in rows) + "]"


def value(rng, key):
    if rng.random() < 0.05:
        return rng.choice(NUMBERS + TEXTS)
    if key in ("gas", "chirality"):
        texts = GASES if key == "gas" else CHIRALITIES
        return rng.choice(texts if rng.random() < 0.9 else TEXTS)
    if key == "cells":
        return cells(rng)
    if key in ("solid", "particles"):
        count = 4 if key == "solid" else 3
        return "[" + ", ".join(numbers(rng, count) for _ in range(rng.randint(0, 3))) + "]"
    if key == "version" and rng.random() < 0.9:
        return rng.choice("12")
    return rng.choice(GENERATIONS) if key == "generation" and rng.random() < 0.8 else number(rng)


def scene(rng):
    form = ["cells"]
    if rng.random() >= 0.5:
        more = [key for key in ("solid", "rate", "particles") if rng.random() < 0.6]
        form = ["width", "height", *more]
    keys = ["gas"] + form + [k for k in ("version", "chirality", "seed") if rng.random() < 0.5]
    if rng.random() < (0.6 if "version" in keys else 0.05):
        keys.append("generation")
    if rng.random() < 0.15:
        keys.append(rng.choice(KEYS))
    if rng.random() < 0.1:
        keys.remove(rng.choice(keys))
    rng.shuffle(keys)
    return "\n".join(f"{key} = {value(rng, key)}" for key in keys).encode()


def mutated(rng, text):
    text = bytearray(text)
    for _ in range(rng.choice([0, 0, 1, 2, 8])):
        at = rng.randrange(len(text) + 1)
        kind = rng.randrange(6)
        if kind == 0:
            text[at:at] = bytes([rng.randrange(256)])
        elif kind == 1:
            del text[at : at + rng.randint(1, 4)]
        elif kind == 2:
            text[at : at + 1] = bytes([rng.choice(b'"[]{}=,.#\n0123456789abcdef')])
        elif kind == 3:
            text = text[:at]
        else:
            text[at : at + rng.choice([0, 0, 1, 3])] = rng.choice(GRAMMAR).encode()
    return bytes(text)


def spliced(rng, first, second):
    """The head of one text and the tail of another, cut anywhere or between lines."""
    if rng.random() < 0.5:
        return first[: rng.randrange(len(first) + 1)] + second[rng.randrange(len(second) + 1) :]
    lines, others = first.splitlines(True), second.splitlines(True)
    head = lines[: rng.randrange(len(lines) + 1)]
    return b"".join([*head, b"\n", *others[rng.randrange(len(others) + 1) :]])


def fed_back(printed):
    """A scene of what was printed: its rows as a map."""
    rows = printed.decode().splitlines()[1:]
    return ('gas = "fhp1"\ncells = [' + ", ".join(f'"{row}"' for row in rows) + "]\n").encode()


def run(program, text, *words):
    """The status and what was printed, on standard error if standard output is empty."""
    known = {"input": text, "timeout": needs.PATIENCE}
    done = subprocess.run([program, *words], capture_output=True, **known)
    if bool(done.stdout) == bool(done.stderr):
        return done.returncode, f"{done.stdout[:80]!r} and {done.stderr[:80]!r}"
    return done.returncode, (done.stdout or done.stderr).decode(errors="replace")


def expected(text):
    """What `check` and `run --generations 0` must print, by the second reading: None for a large
    area, UNSURE for what may be TOML 1.1."""
    try:
        lattice = second_reader.read(text, MOST_CELLS)
    except second_reader.Refused as refused:
        return UNSURE if refused.unsure else ((1, f"{refused}\n"),) * 2
    return ((0, lattice.check_line()), (0, lattice.printed())) if lattice else None


def explanation(text):
    """What `explain` says of a text: the status, the first line, and whether all its lines have
    reasons in one line."""
    found = refusals.explained(text)
    is_told = bool(found) and all(
        reasons and all(map(str.isprintable, reasons)) for _, reasons, _ in found
    )
    return int(bool(found)), f"{found[0][0]}\n" if found else "", is_told


def compared(program, text):
    """The kind of the answer, and the printed cells of a scene, both None if the second reading says
    no more than that a text is read or refused."""
    wanted, answer = expected(text), run(program, text, "check")
    if wanted is UNSURE or wanted is None:
        assert answer[0] in ((0, 1) if wanted is UNSURE else (0,)), text
        return None, None
    checked, printed = wanted
    assert answer == checked, text
    told = answer[0], answer[1] if answer[0] else "", answer[0] == 1
    assert explanation(text) == told, text
    if answer[0]:
        return re.sub(r"\d+", "N", answer[1].strip()), None
    assert run(program, text, "run", "--generations", "0") == printed, text
    return "read", printed[1].encode()


# what a version may be, letters of two bytes and more, and columns of bytes and rows at the limits
# of both versions
VERSIONS = ["", *(f"version = {value}" for value in ("1", "3", '"2"', "2.0", "[2]", "2"))]
LETTERS = "é éé Ж ЖЖ 中 中. 中中 ０１ ٠١ 🙂 🙂🙂 e\u0301 ..é 01Ж 0\u00a0 ｆｆ \u2028\u2028".split(" ")
FIRST = "8192x1 8194x1 2x4096 2x4097 8191x1 0x1"
LIMITS = {
    "": FIRST,
    "version = 1": FIRST,
    "version = 2": "8194x1 2x4097 131072x1 131074x1 2x65536 2x65537 131071x1 0x1",
}


def areas():
    """Areas in both versions with the integers at the edges of 64 bits and of their ranges, past
    them and as other values."""
    keys = dict.fromkeys(("version", "generation", "seed", "width", "height", "rate"), "%s")
    for key, length in ("solid", 4), ("particles", 3):
        for k in range(length):
            values = ", ".join("%s" if i == k else "1" for i in range(length))
            keys[f"{key} {k}"] = f"[[{values}]]"
    numbers = NUMBERS + EDGES + SIDES + GENERATIONS
    for (place, form), number in itertools.product(keys.items(), numbers):
        for version in ({}, {"version": "2"}):
            area = {"gas": '"fhp1"', "width": "4", "height": "3"} | version
            area[place.split()[0]] = form % number
            yield "\n".join(f"{key} = {value}" for key, value in area.items()).encode()


def maps():
    """Maps with a generation and every kind of version, with letters, and at the limits of both
    versions."""
    for version, generation in itertools.product(VERSIONS, GENERATIONS + ["'1'"]):
        yield f'gas = "fhp1"\ncells = ["01"]\n{version}\ngeneration = {generation}'.encode()
    for letters in LETTERS:
        yield f'gas = "fhp1"\ncells = ["{letters}"]'.encode()
        yield f'gas = "{letters}"\ncells = [".."]'.encode()
        yield f'"{letters}" = 1'.encode()
    for version, sizes in LIMITS.items():
        for row, rows in (map(int, size.split("x")) for size in sizes.split()):
            cells = f'"{"." * row}",' * rows
            yield f'{version}\ngas = "fhp1"\ncells = [{cells}]'.encode()


def text_of(rng, printed):
    kind = rng.random()
    if kind < 0.05:
        return rng.randbytes(rng.randrange(64))
    if kind < 0.25:
        return mutated(rng, spliced(rng, scene(rng), scene(rng)))
    if kind < 0.35 and printed:
        return mutated(rng, fed_back(rng.choice(printed)))
    return mutated(rng, scene(rng))


GIVEN = {"areas": [*areas()], "maps": [*maps()]}


@pytest.mark.parametrize("name", GIVEN)
def test_given(program, name):
    for text in GIVEN[name]:
        compared(program, text)


def pytest_generate_tests(metafunc):
    if "seed" in metafunc.fixturenames:
        parts = range(-(-metafunc.config.getoption("scenes") // PART))
        metafunc.parametrize("seed", parts)


def test_random(program, seed):
    rng, kinds, printed = random.Random(seed), set(), []
    for _ in range(PART):
        kind, cells = compared(program, text_of(rng, printed))
        kinds.add(kind)
        printed += [cells] if cells else []
    assert seed or len(kinds - {None}) == 9  # answers, all of which come in the first part

"""A second reading of scenes, on Python's own TOML reader, by docs/FORMATS.md alone: the line that
refuses a text, the reasons, and what else is wrong. It shares nothing with the program. The tests
compare the program with it, and `explain` prints its reasons."""
import difflib
import itertools
import json
import math
import re
import tomllib
from collections.abc import Iterable, Iterator
from typing import Any

from .gas_table import CHIRALITIES, GASES
from .limits import MOST_BYTES

STATES = {name: 1 << len(gas.momenta) for name, gas in GASES.items()}
WORDS: dict[str, Iterable[str]] = {"gas": STATES, "chirality": CHIRALITIES}  # keys with texts
# What gases are called in print; None if the program lacks the gas.
PUBLISHED: dict[str, str | None] = {"fhp3": None, "fhpiii": None}
PUBLISHED |= {word: name for name, gas in GASES.items() for word in gas.in_print}
MOST_SIDE = {1: 4096, 2: 65536}
INTEGERS = ("version", "generation", "seed", "width", "height", "rate")
LISTS = {"solid": (4, "[x, y, w, h]"), "particles": (3, "[x, y, state]")}
AREA = ("width", "height", "solid", "rate", "particles")
KEYS = (*INTEGERS, "gas", "chirality", "cells", *LISTS)
TYPES = {bool: "a truth value", int: "an integer", float: "a float", str: "a text"}
TYPES |= {list: "a list", dict: "a table"}  # any other is a date or a time
DEEPEST, MOST_ROWS = 80, 8
TOO_DEEP = f"lists, tables or keys are nested more than {DEEPEST} deep"
SYNTAX = "scene: not TOML"
Reasons = Iterator[tuple[tuple, str]]
# What only TOML 1.1 has: Python's reader takes 1.0, and refuses more than the program does.
NEWER = re.compile(r"\\[ex]|\{|\d:\d|0000-")
# What a mistake that Python's reader names usually comes from.
MISTAKES = {
    "Cannot overwrite a value": "a key stands twice",
    "Unclosed array": "a comma is missing, or the bracket that closes the list",
    "Invalid value": "a text needs quotes, a number no 0 before it, and a hexadecimal one 0x",
    "Invalid value (at end of document)": "a value is missing, or the bracket that closes a list",
    "Illegal character '\\n'": "the quote that ends the text is missing",
    "Expected newline or end of document after a statement": "each key stands on a line of its own",
    "Expected '=' after a key in a key/value pair": "a key, `=` and a value make a line",
}


class Refused(Exception):
    """The line that refuses a scene, and the reasons: pairs of a path and a sentence. A path is the
    reason's place in the document: a key, places in lists, and for a map the place of a cell in its
    row, or empty if there is no such place. `later` has the lines, with their reasons, that follow
    once these are mended. A refusal is unsure if the text is not TOML 1.0 and may be 1.1."""

    def __init__(self, line: str, reasons: list, later: Iterable = (), unsure: bool = False):
        super().__init__(line)
        self.reasons, self.later, self.unsure = reasons, list(later), unsure


def read(text: bytes) -> dict:
    """The keys of the bytes of a scene and their values, or the first refusal as a Refused."""
    if len(text) > MOST_BYTES:
        why = f"the text has {len(text)} bytes, and the program reads {MOST_BYTES}"
        raise Refused("input: too long", [((), why)])
    try:
        letters = text.decode("utf-8-sig")
        table = tomllib.loads(letters, parse_float=finite)
    except UnicodeDecodeError as fault:
        line = text.count(b"\n", 0, fault.start) + 1
        byte = fault.start - text.rfind(b"\n", 0, fault.start)
        raise Refused(SYNTAX, [((), f"line {line}, byte {byte}: no UTF-8")]) from None
    except tomllib.TOMLDecodeError as fault:
        why, unsure = sentence(str(fault), letters), bool(NEWER.search(letters))
        raise Refused(SYNTAX, [((), why)], unsure=unsure) from None
    except ValueError:  # Python reads integers of up to 4300 digits
        before, *_ = re.split(r"[\d_]{4300}", letters, maxsplit=1)
        line = before.count("\n") + 1
        why = f"line {line}: an integer of thousands of digits is no integer of 64 bits"
        raise Refused(SYNTAX, [((), why)]) from None
    except RecursionError:
        raise Refused(SYNTAX, [((), TOO_DEEP)]) from None
    if reasons := list(beyond(table)):
        raise Refused(SYNTAX, reasons)
    if found := faults(table):
        raise Refused(*found[0], found[1:])
    return table


def finite(word: str) -> float:
    """A float of a document, if it is one of 64 bits."""
    if math.isinf(float(word)) and "inf" not in word:
        raise Refused(SYNTAX, [((), f"{word} is no float of 64 bits")])
    return float(word)


def beyond(value: Any, path: tuple = (), deep: int = 0) -> Reasons:
    """What Python's reader takes and the program does not: integers of more than 64 bits, and what
    is nested too deep."""
    if deep > DEEPEST:
        yield path[:1], TOO_DEEP
    elif type(value) in (dict, list):
        for key, entry in value.items() if type(value) is dict else enumerate(value):
            yield from beyond(entry, (*path, key), deep + (type(entry) in (dict, list)))
    elif type(value) is int and not -(2**63) <= value < 2**63:
        name = value if value.bit_length() < 200 else f"one of {value.bit_length()} bits"
        yield path, f"{name} is no integer of 64 bits"


def sentence(message: str, text: str) -> str:
    """Where and why a text is not TOML, from what Python's reader says."""
    what, _, where = message.removesuffix(")").rpartition(" (at ")
    newer = "the text may be TOML 1.1, which the program reads and Python does not"
    hint = MISTAKES.get(message) or MISTAKES.get(what, newer if NEWER.search(text) else "")
    if place := re.fullmatch(r"line (\d+), column (\d+)", where):
        line, column = text.split("\n")[int(place[1]) - 1], int(place[2]) - 1
        if line[column : column + 1] in {*"“”„‘’"}:
            hint = "the quotes are curly, and TOML has plain ones"
        for word in re.finditer(r"\b\d[0-9a-f]*[a-f][0-9a-f]*\b", line):
            if word.start() <= column < word.end():
                hint = f"a hexadecimal state is 0x{word[0]}"
    if text.startswith("generation "):
        hint = "the text is what `run` prints: `resume` makes a scene of it"
    return f"{where}: {what}" + (f": {hint}" if hint else "")


def faults(table: dict) -> list[tuple[str, list]]:
    """The lines that refuse a scene with their reasons, in order. Before a further check what is at
    fault is mended if it is a misspelt word, and else left out."""
    table, found = dict(table), dict[str, list]()
    for line, check in CHECKS:
        for path, why in list(check(table)):
            found.setdefault(line, []).append((path, why))
            mend(table, *path[:1])
    return [*found.items(), *itertools.islice(row_faults(table), MOST_ROWS)]


def mend(table: dict, key: str | None = None) -> None:
    """Takes a key at fault for the nearest one, or with the nearest value, or leaves it out."""
    value, near = table.pop(key, None), closest(key or "", KEYS)[0]
    if near and near not in table and near != key:
        table[near] = value
    if key in WORDS and type(value) is str and (near := closest(value, WORDS[key])[0]):
        table[key] = near


def closest(word: str, known: Iterable[str]) -> tuple[str | None, bool]:
    """The known word that is most like this one, or None, and whether this is a published name of a
    gas."""
    plain = re.sub(r"[-_\s]", "", word.lower())
    if known is STATES and plain in PUBLISHED:
        return PUBLISHED[plain], True
    return next(iter(difflib.get_close_matches(word.lower(), known, 1, 0.5)), None), False


def nearest(word: str, known: Iterable[str]) -> str:
    """A hint at the known word that is most like this one, or else at all known words."""
    found, is_published = closest(word, known)
    if found:
        return f"{'its name here' if is_published else 'the nearest'} is `{found}`"
    names = ", ".join(f"`{name}`" for name in known)
    return f"there {'is none here, only' if is_published else 'are'} {names}"


def shown(value: Any) -> str:
    """A value in one line, cut if it is long."""
    text = json.dumps(value, ensure_ascii=False, default=str)
    text = "".join(letter if letter.isprintable() else f"\\u{ord(letter):04x}" for letter in text)
    return text if len(text) <= 60 else text[:57] + ".."


def is_tuple(value: Any, count: int) -> bool:
    return type(value) is list and [type(entry) for entry in value] == [int] * count


def type_of(value: Any) -> str:
    return TYPES.get(type(value), "a date or a time")


def version_of(table: dict) -> int:
    """The version whose keys and limits apply: anything but 2 counts as 1."""
    return 2 if type(table.get("version")) is int and table["version"] == 2 else 1


def unknown_keys(table: dict) -> Reasons:
    for key, value in table.items():
        if key == "generation" and version_of(table) == 1:
            yield (key,), "`generation` is a key of version 2 alone, with `version = 2` beside it"
        elif key not in KEYS:
            heading = ", and all keys stand at the top level, under no heading"
            heading *= type(value) is dict
            yield (key,), f"{shown(key)} is no key of a scene{heading}; {nearest(key, KEYS)}"


def keys_of_both_forms(table: dict) -> Reasons:
    for key in AREA if "cells" in table else ():
        if key in table:
            yield (key,), f"`{key}` is a key of an area, and `cells` makes this scene a map"


def missing_keys(table: dict) -> Reasons:
    sides = [key for key in ("width", "height") if key not in table]
    if not table:
        yield (), "no key stands in the text"
    elif "gas" not in table:
        yield (), "`gas` is missing: " + ", ".join(f'"{name}"' for name in STATES)
    if table and "cells" not in table and sides:
        both = "`cells` is missing, or `width` and `height`"
        yield (), both if len(sides) == 2 else f"`{sides[0]}` is missing"


def wrong_types(table: dict) -> Reasons:
    for key, value in table.items():
        wanted = "an integer" if key in INTEGERS else "a text" if key in WORDS else "a list"
        count, form = LISTS.get(key, (0, ""))
        if (kind := type_of(value)) != wanted:
            yield (key,), f"`{key}` is {kind}, {shown(value)}, and must be {wanted}"
        elif count and is_tuple(value, count):
            one = shown(value)
            yield (key,), f"`{key}` is one entry, {one}, and must be a list of entries: [{one}]"
        elif wanted == "a list":
            for place, entry in enumerate(value):
                if not count and type(entry) is not str:
                    why = f"row {place} is {type_of(entry)}, {shown(entry)}, and must be a text"
                    yield (key, place), why
                if count and not is_tuple(entry, count):
                    why = f"`{key}`, {shown(entry)}, must be a list of {count} integers, {form}"
                    yield (key, place), f"entry {place} of {why}"


def out_of_range(table: dict) -> Reasons:
    version, sides = version_of(table), ("width", "height", "cells")
    ranges = {"version": (1, 2), "seed": (0, 2**63 - 1), "generation": (0, 10**12)}
    ranges |= {"rate": (0, 1000)} | dict.fromkeys(sides, (1, MOST_SIDE[version]))
    for key, (least, most) in ranges.items():
        value = len(table.get(key, ())) if key == "cells" else table.get(key, least)
        if key in table and not least <= value <= most:
            has = "has {} rows, and must have" if key == "cells" else "is {}, and must be"
            longer = key in sides and version == 1 and most < value <= MOST_SIDE[2]
            more = f" (with `version = 2` to {MOST_SIDE[2]})" * longer
            yield (key,), f"`{key}` {has.format(value)} {least} to {most}{more}"
    for key, known in WORDS.items():
        if key in table and table[key] not in known:
            yield (key,), f"`{key}` is {shown(table[key])}; {nearest(table[key], known)}"


def misplaced(table: dict) -> Reasons:
    """The rectangles that are empty or leave the area, and the particles outside it, in a
    rectangle, or with a state that the gas lacks."""
    if "width" not in table or "height" not in table:
        return
    width, height, solid = table["width"], table["height"], table.get("solid", [])
    gas = table.get("gas", "")
    states = STATES.get(gas, 256)
    area = f"the area of columns 0 to {width - 1} and rows 0 to {height - 1}"
    for place, (x, y, w, h) in enumerate(solid):
        if w < 1 or h < 1:
            yield ("solid", place), f"rectangle {place}, {[x, y, w, h]}, is empty"
        elif not (0 <= x and 0 <= y and x + w <= width and y + h <= height):
            end = f"it ends at column {x + w - 1} and row {y + h - 1}"
            yield ("solid", place), f"rectangle {place}, {[x, y, w, h]}, leaves {area}: {end}"
    for place, (x, y, state) in enumerate(table.get("particles", [])):
        name = f"particle {place}, {[x, y, state]},"
        if not (0 <= x < width and 0 <= y < height):
            yield ("particles", place), f"{name} is outside {area}"
        elif not 0 <= state < states:
            why = f"{name} has state {state}, and those of {gas} are 0 to {states - 1}"
            yield ("particles", place), why
        elif (cover := covering(solid, x, y)) is not None:
            yield ("particles", place), f"{name} stands in rectangle {cover}, {solid[cover]}"


def covering(solid: list, x: int, y: int) -> int | None:
    """The place of the first rectangle that covers a cell, or None."""
    for place, (left, top, w, h) in enumerate(solid):
        if left <= x < left + w and top <= y < top + h:
            return place
    return None


# The checks before a map's rows, in their order, with the lines that refuse.
CHECKS = [
    ("scene: unknown key", unknown_keys),
    ("scene: both forms", keys_of_both_forms),
    ("scene: missing key", missing_keys),
    ("scene: wrong type", wrong_types),
    ("scene: out of range", out_of_range),
    ("scene: out of range", misplaced),
]


def row_faults(table: dict) -> Iterator[tuple[str, list]]:
    """The faults of a map's rows with their lines: first wrong lengths."""
    rows, whole = [row.encode() for row in table.get("cells", ())], []
    for number in range(len(rows)):
        if why := length_fault(rows, number, MOST_SIDE[version_of(table)]):
            yield f"scene: row {number} has a wrong length", [(("cells", number), why)]
        else:
            whole.append(number)
    gas = table.get("gas", "")
    cell = re.compile(rb"(?:\.\.|##|[0-%d][0-9a-f])*" % (STATES.get(gas, 16) // 16 - 1))
    for number in whole if gas in STATES else ():
        found = cell.match(rows[number])
        length = found.end() if found else 0  # up to the first pair that is not a cell
        if length + 1 < len(rows[number]):
            reason = ("cells", number, length // 2), cell_fault(rows[number][length:][:2], gas)
            yield f"scene: row {number} cell {length // 2} is not a cell", [reason]


def length_fault(rows: list[bytes], number: int, most: int) -> str | None:
    """Why the length of a row is wrong, or None."""
    length, first = len(rows[number]), len(rows[0])
    if number == 0:
        if length % 2:
            return f"row 0 has {length} characters, an odd number, and a cell has two"
        why = f"row 0 has {length // 2} cells, and must have 1 to {most}"
        return None if 2 <= length <= 2 * most else why
    if length == first:
        return None
    alike = sum(len(row) == length for row in rows)
    others = f"; as many have {alike} of the {len(rows)} rows, so row 0 may be the wrong one"
    others *= 2 * alike > len(rows)
    return f"row {number} has {length} characters, and row 0 has {first}{others}"


def cell_fault(pair: bytes, gas: str) -> str:
    """Why two bytes are not a cell of a gas."""
    text, states = pair.decode(errors="replace"), f"`00` to `{STATES[gas] - 1:02x}`"
    if re.fullmatch("[0-9a-f]{2}", text):
        return f"`{text}` is no state of {gas}, whose states are {states}"
    if re.fullmatch("[0-9a-fA-F]{2}", text):
        return f"`{text}` has a capital digit, and digits of states are small"
    return (
        f"{shown(text)} is no cell: `..` is empty, `##` is solid, and a state of {gas} is {states}"
    )

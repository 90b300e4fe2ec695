#!/usr/bin/env python3
"""Says which definitions a reader of the public contracts must believe. As a script it writes them to
the file that is named, the page DEFINITIONS.md, by `make definitions`, or with calls that
docs/PROVED.md links those below these alone, by `make definitions FOR=run`.

A definition is an item of a crate's specs/. It must be believed if the contract of a public call
names it, or another that must be believed does. A reader also meets the code's types that these
definitions name, and the ghost members of public traits that public contracts name. The definitions
of the kit's crates that all these reach are counted and named, but not shown: a kit of another letter
may have others."""

import functools
import pathlib
import re
import sys
import textwrap

sys.path.append(f"{sys.path[0]}/../lib")
import antt
import needs
import sources

CRATES = needs.ROOT / "crates"
INNER = "-- Inner words"
FIRST = "gas_geom", "Fhp1"  # the file that a reader sees first: it says what a collision is
USE_OF_TYPE = re.compile(
    r"(?m)^\s*use Rattle\.(\w+)\.specs\.declared\.[\w.]*?(\w+)(?:\.TheVariants)?(?:\.\{([^}]*)\}| as (\w+))"
)
MEMBER = re.compile(r"^((?:    ///[^\n]*\n)*    ghost (\w+): [^\n]*;)$", re.M)
CONSTANT = re.compile(r"^\s*(?:pub(?:\(\w+\))? )?const (\w+):", re.M)

HEAD_OF_PAGE = """\
# Definitions

This page is for readers who want to judge what must be believed: the definitions with which all promises are stated, file by file. It is
the text of `specs/`. It begins with FHP-I, where `collide` says what a collision does, and then takes the files so that most come after the
ones that they use. Numbers are whole numbers without bound. [LIBRARY](../docs/LIBRARY.md#how-to-read-a-contract) explains the notation,
[PHYSICS](../docs/PHYSICS.md#sources) lists the sources of the gases, and [FORMATS](../docs/FORMATS.md) shows the formats by example.

Two kinds of files in `specs/` need not be read: proofs under `specs/Laws`, and internal definitions, in files whose first line begins
`-- Inner words`. Four relations (`MayHaveBeenFed` with `HoldsLast`, `MayHaveDone` and `MayHaveFed`) say which rows may have led to a state
of the code. The first call establishes them for empty lists, every step preserves them, and every promise is true for all lists that
satisfy them.

## What the code adds

Types with plain names, and what a type states of itself: a gas the number of its directions (`DIRS`) and whether its collisions use the
random bit, rows the lattice that their words contain, an end of a belt its steps. On a belt on one thread a put is ready if it has room,
and a take if it has a row. A belt between threads is never stated to be ready.
"""
KIT_ADDS = """
## The kit's definitions

They say what `clap`'s arguments ask for, what a TOML document is, and the block function of the key stream, which a test compares with
published vectors. The kit's `CRATE/specs` has them. In `{}` the definitions above reach {:,} lines, comments and Rattle's own words left
out:
"""
HEAD_FOR = """\
# Definitions for {}

{} lines of ours, in an order to be read, and {} of the kit's, comments left out. Numbers are whole numbers without bound.
"""
GASES = """\
The tables of the three gases are in `Fhp1`, `FhpRest` and `Hpp` of `gas_geom/specs`.
"""


def is_own(crate):
    return (CRATES / crate).is_dir()


def types_in(text):
    """The code's types that `use` lines bring in, by their names here, with their crates."""
    found = {}
    for crate, kind, names, alias in USE_OF_TYPE.findall(text):
        if is_own(crate) and kind != "TheConstants":
            here = [part.strip().split(" as ")[-1] for part in names.split(",")]
            found |= dict.fromkeys([alias] if alias else here, (crate, kind))
    return found


def constants():
    """The constants of the code. Those that a trait asks for are what a type states of itself, and no limits."""
    text = "\n".join(path.read_text() for path in CRATES.glob("*/src/**/*.rt"))
    return {*CONSTANT.findall(text)} - {*re.findall(r"^    ghost (\w+):", text, re.M)}


def public_texts(crate):
    """The source files of a library that its root makes public, module by module, or names an item of."""
    waiting = [CRATES / crate / "src/lib.rt"]
    while waiting:
        path = waiting.pop()
        if not path.exists():
            continue
        text = path.read_text()
        yield text
        folder = path.parent if path.name in ("lib.rt", "mod.rt") else path.with_suffix("")
        for module in re.findall(r"^pub (?:mod|use) (\w+)(?:;|::)", text, re.M):
            if re.search(rf"^(?:pub )?mod {module};", text, re.M):
                waiting += [folder / f"{module}.rt", folder / module / "mod.rt"]


def traits(text):
    """The public traits, by their names and their bodies."""
    for trait in re.finditer(r"^pub trait (\w+)[^{]*\{", text, re.M):
        yield trait[1], sources.braced(text, trait.end() - 1)[0]


def contracts(text, kinds="requires|ensures"):
    """The clauses of public functions and traits, and the types as which callers see public values."""
    text = re.sub(r"//[^\n]*", "", text)
    private = set(re.findall(r"^(?:pub\(crate\) )?(?:struct|enum) (\w+)", text, re.M))
    for _, body in traits(text):
        yield from clauses(body, r"^    fn \w+", kinds)
        yield from re.findall(r"ghost \w+: (\{[^\n]*\});", body)
    for model in re.finditer(r"^impl(?:<[^{]*?>)? Model for (\w+)[^{]*\{", text, re.M):
        if model.group(1) not in private:
            of_model = sources.braced(text, model.end() - 1)[0]
            yield from re.findall(r"ghost Value = (\{[^\n]*\});", of_model)
    yield from re.findall(r"ghost from_gives = (\{[^\n]*\});", text)
    yield from clauses(text, r'^ *pub (?:extern "C" )?fn \w+', kinds)


def clauses(text, head, kinds):
    for function in re.finditer(head, text, re.M):
        found = sources.contract(text, function.end())
        yield from (clause for kind, _, clause in found if kind in kinds)


def specs(crate, file):
    return (CRATES / crate / "specs" / f"{file.replace('.', '/')}.antt").read_text()


def shown(crate, file, believed):
    """The definitions of a file that must be believed, below the comment at its head."""
    title, *blocks = antt.blocks(specs(crate, file))
    texts = {it.text for key, it in believed.items() if key[:2] == (crate, file)}
    yield f"\n## `{crate}/specs/{file.replace('.', '/')}.antt`\n"
    yield textwrap.fill(comment_of(title), 140) + "\n"
    yield "```antt\n" + "\n\n".join(block for block in blocks if block in texts) + "\n```"


def comment_of(block):
    """The comment at the head of a block, in one line."""
    lines = re.match(r"(?:--[^\n]*\n)*", block + "\n")[0].splitlines()
    return " ".join(line.removeprefix("--").strip() for line in lines)


def reading_order(believed):
    """The files, those of lower crates first, and in a crate each after the ones that it cites."""
    crates = re.findall(r"^(\w+)(?: staticlib)?:", (needs.ROOT / "crates.txt").read_text(), re.M)
    cites = {key[:2]: set() for key in sorted(believed)}
    for key, definition in believed.items():
        cites[key[:2]] |= {used[:2] for used in definition.uses} - {key[:2]}
    order = [FIRST] * (FIRST in cites)
    for crate in crates:
        waiting = [file for file in cites if file[0] == crate and file != FIRST]
        while waiting:
            free = (file for file in waiting if not cites[file] & set(waiting))
            ready = next(free, waiting[0])
            order.append(ready)
            waiting.remove(ready)
    return order


def of_the_code(types, members):
    """What the code adds: the types that definitions name, and what public traits state of themselves."""
    for crate in sorted({crate for crate, _ in types}):
        yield f"- `{crate}`: {', '.join(sorted(f'`{name}`' for of, name in types if of == crate))}"
    for (crate, trait), items in members.items():
        yield f"\n`{trait}` of `{crate}`:\n\n```rust\n" + "\n".join(items) + "\n```"


def lines_of(definitions):
    return sum(definition.lines() for definition in set(definitions))


def of_the_kit(reached):
    """The names of the kit's definitions, file by file, with their lines."""
    for crate in sorted({key[0] for key in reached}):
        here = {key: it for key, it in sorted(reached.items()) if key[0] == crate}
        files = {file: [key[2] for key in here if key[1] == file] for _, file, _ in here}
        parts = [f"`{file}`: {', '.join(names)}" for file, names in files.items()]
        text = f"- `{crate}`, {lines_of(here.values())} lines. " + ". ".join(parts)
        whole = {"break_on_hyphens": False, "break_long_words": False}
        yield textwrap.fill(text, 140, subsequent_indent="  ", **whole)


def types_of(believed):
    """The code's types that definitions name, with their crates."""
    for (crate, file, _), definition in believed.items():
        types = types_in(specs(crate, file))
        yield from (types[word] for word in definition.words() if word in types)


def contracts_of(public, limits):
    """What the public contracts cite, the ghost members that they name, by the traits, and which of their promises cite a constant of the
    code."""
    cited, asked, words, wrong = set(), [], set(), []
    for crate, text in ((crate, text) for crate, texts in public.items() for text in texts):
        brought, clauses_here = antt.brought(text), list(contracts(text))
        named = {word for clause in clauses_here for word in antt.words_in(clause)}
        cited |= {brought[word] for word in named & brought.keys() if is_own(brought[word][0])}
        promised = {it for clause in contracts(text, "ensures") for it in antt.words_in(clause)}
        why = f"a promise of a public call of {crate} cites {{}}, a constant of the code"
        wrong += map(why.format, sorted(promised & limits))
        words |= {part for clause in clauses_here for part in re.findall(r"\w+", clause)}
        asked += [((crate, name), MEMBER.findall(body)) for name, body in traits(text)]
    named = {trait: [item for item, name in found if name in words] for trait, found in asked}
    return cited, {trait: items for trait, items in named.items() if items}, wrong


class Read:
    """What the sources have: `public` texts by their crates, the `known` definitions without proofs,
    those to be `believed`, the code's own and `of_kit`, and the kit's `letter`, None without it."""

    def __init__(self):
        self.public = {it.name: list(public_texts(it.name)) for it in sorted(CRATES.iterdir())}
        self.letter, kit = needs.kit() or (None, CRATES)  # without it its definitions are not found
        definitions = antt.Definitions(lambda crate: (CRATES if is_own(crate) else kit) / crate)
        for crate in self.public:
            definitions.read_crate(crate)
        proofs = lambda file: file.split(".")[0] in ("Lib", "Laws")  # that must be in specs/
        self.known = {key: it for key, it in definitions.known.items() if not proofs(key[1])}
        self.limits = constants()
        self.cited, self.members, self.wrong = contracts_of(self.public, self.limits)
        self.definitions = definitions
        self.believed, self.of_kit = self.below(self.cited)

    def below(self, cited):
        """The definitions that these rest on, the code's own and the kit's."""
        reached = self.definitions.reached(cited)
        own = {key: it for key, it in reached.items() if is_own(key[0])}
        return own, {key: it for key, it in reached.items() if key not in own}

    def below_calls(self, calls):
        """Those that the contracts of functions that docs/PROVED.md links rest on."""
        cited = set()
        for text, call in ((sources.LINKED[call].read_text(), call) for call in calls):
            clauses = (it.clauses for it in sources.functions(text) if it.call == call)
            words = {it for has in clauses for *_, clause in has for it in antt.words_in(clause)}
            cited |= {key for name, key in antt.brought(text).items() if name in words}
        return self.below(cited)


@functools.cache
def read():
    return Read()


def test_inner_words():
    """What no public contract cites, and nothing else, is in files whose first line says so."""
    inner = {key for key in read().known if specs(*key[:2]).startswith(INNER)}
    assert inner == read().known.keys() - read().believed.keys()


def test_callers_can_name_the_types():
    for crate, kind in sorted(set(types_of(read().believed))):
        is_public = re.compile(rf"^pub (?:struct|enum) {kind}\b", re.M).search
        assert any(map(is_public, read().public[crate])), f"{kind} of {crate}"


def test_no_promise_cites_a_constant_of_the_code():
    assert not read().wrong
    for key, definition in read().believed.items():
        assert not definition.words() & read().limits, key


def test_what_is_cited_is_defined():
    uses = read().cited.union(*(it.uses for it in read().known.values()))
    assert not [key for key in uses - read().known.keys() if is_own(key[0])]


def page():
    believed, letter = read().believed, read().letter
    yield HEAD_OF_PAGE
    yield from of_the_code({*types_of(believed)}, read().members)
    for file in reading_order(believed):
        yield from shown(*file, believed)
    if letter:
        yield KIT_ADDS.format(letter, lines_of(read().of_kit.values()))
        yield from of_the_kit(read().of_kit)


def page_for(calls):
    own, of_kit = read().below_calls(calls)
    lines = HEAD_FOR.format(" and ".join(calls), *map(lines_of, (own.values(), of_kit.values())))
    yield lines + ("" if FIRST in own else GASES)
    for file in reading_order(own):
        yield from shown(*file, own)
    if of_kit:
        yield "\n## The kit's\n"
        yield from of_the_kit(of_kit)


if __name__ == "__main__":
    file, *calls = sys.argv[1:]
    pathlib.Path(file).write_text("\n".join(page_for(calls) if calls else page()) + "\n")

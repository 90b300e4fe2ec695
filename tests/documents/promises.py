#!/usr/bin/env python3
"""Compares the text of the promises with tests/documents/promises.txt: of the functions that docs/PROVED.md links, of those in the examples
that it links and of public traits what they take and each clause, and each definition of ours that public contracts reach. A text that goes
or changes must be named below `### Promises` of the newest version in CHANGELOG.md, in an item that says why:

    - `OLD` became `NEW` in `PLACE`, `PLACE`, because ..
    - `OLD` is gone from `PLACE`, because ..
    - `OLD` is renamed `NEW`, because ..

A place is what promises.txt calls it. OLD and NEW are texts or parts of them; a new name is one everywhere. As a script, with --write, it
adds new texts to promises.txt and writes those that CHANGELOG names. All this makes a change visible, and judges nothing."""

import os.path
import re
import sys
import textwrap

sys.path.append(f"{sys.path[0]}/../lib")
import definitions
import needs
import sources

KEPT = needs.ROOT / "tests/documents/promises.txt"
CHANGELOG = needs.ROOT / "CHANGELOG.md"
EXAMPLES = re.findall(r"\]\(\.\./(crates/[\w/]+\.rt)\)", sources.PROVED.read_text())
PLACES = r"`[^`]+`(?:,? (?:and )?`[^`]+`)*"
ITEM = re.compile(
    rf"`([^`]+)` (?:became `([^`]+)` in ({PLACES})|is gone from ({PLACES})|is renamed `([^`]+)`), because \w"
)

LAW = "(n : ℕ) → count n ≡ count 0"
OLD = f"gas law kept: {LAW}\ngas Gas.count:\n    count : ℕ → ℕ\n    count n = min n 64\n"
EMPTIED = OLD.replace("≡ count 0", "≡ count n")
LARGER = OLD.replace("64", "1024")
RENAMED = OLD.replace("count", "number")
GONE = OLD.partition("\n")[2]
ASK_EMPTIED = ["- `count 0` became `count n` in `gas law kept`, because"]
ASK_LARGER = ["- `n 64` became `n 1024` in `gas Gas.count`, because"]
ASK_OTHER = ["- `= min n` became `= max n` in `gas Gas.number`, because"]
ASK_GONE = [f"- `{LAW}` is gone from `gas law kept`, because"]
CASES = [  # what CHANGELOG says, the texts as they become, and what it must still say
    ("", OLD + "gas law more: 1 ≡ 1\n", []),
    ("", OLD.replace("    ", "      "), []),
    ("", EMPTIED, ASK_EMPTIED),
    ("- `count 0` became `count n` in `gas law kept`.", EMPTIED, ASK_EMPTIED),
    ("- `count 0` became `0` in `gas law kept`, because.", EMPTIED, ASK_EMPTIED),
    ("- `count 0` became `count n` in `gas law other`, because it is.", EMPTIED, ASK_EMPTIED),
    ("- `count 0` became `count n` in `gas law kept`, because it is.", EMPTIED, []),
    ("- `count 0` became `count n` in `gas law kept`, because it is.", OLD, []),
    ("", LARGER, ASK_LARGER),
    ("- `6` became `102` in `gas Gas.count`, because it is larger.", LARGER, ASK_LARGER),
    ("- `64` became `1024` in `gas law kept` and\n  `gas Gas.count`, because it is.", LARGER, []),
    ("- `count` is renamed `number`, because it is one.", RENAMED, []),
    ("- `count` is renamed `number`, because it is.", RENAMED.replace("min", "max"), ASK_OTHER),
    ("", GONE, ASK_GONE),
    (f"- `{LAW}` is gone from `gas law kept`, because code says it.", GONE, []),
    (
        "- `≡ count 0` is gone from `gas law kept`, because code says it.",
        GONE,
        ["- `(n : ℕ) → count n` is gone from `gas law kept`, because"],
    ),
]


def plain(text):
    """A text without its layout."""
    return " ".join(text.split())


def of_functions(path):
    """What the functions of a source whose text is kept take and require, and what each of their clauses ensures."""
    text, crate = path.read_text(), path.relative_to(needs.ROOT).parts[1]
    traits = re.findall(r"^pub trait (\w+)", text, re.M)
    is_example = str(path.relative_to(needs.ROOT)) in EXAMPLES
    for call, takes, clauses, _ in sources.functions(text):
        if is_example or call.partition("::")[0] in traits or sources.LINKED.get(call) == path:
            asked = (f"requires {it} {{{of}}}" for kind, it, of in clauses if kind == "requires")
            yield f"{crate} {call}", " ".join([takes, *asked])
            for name, of in (it[1:] for it in clauses if it[0] == "ensures"):
                yield f"{crate} {call} {name}".rstrip(), of


def of_traits(crate, text):
    """The ghost members of public traits."""
    for trait, body in definitions.traits(text):
        for name, member in re.findall(r"^    ghost (\w+): \{([^;]*)\};", body, re.M):
            yield f"{crate} {trait}.{name}", member


def promised():
    """The texts of the promises as the sources have them, by their places."""
    read, found = definitions.read(), {}
    for path in sorted(definitions.CRATES.glob("*/src/**/*.rt")):
        found |= {place: plain(text) for place, text in of_functions(path)}
    for crate, texts in read.public.items():
        found |= {place: plain(text) for it in texts for place, text in of_traits(crate, it)}
    believed = read.believed.items()
    return found | {f"{crate} {file}.{name}": it.code for (crate, file, name), it in believed}


def kept(text):
    """The texts of the made file, by their places."""
    blocks = (
        re.split(r":\s", block, maxsplit=1) for block in re.findall(r"^\S.*(?:\n .*)*", text, re.M)
    )
    return {place: textwrap.dedent(text) for place, text in blocks}


def written(texts):
    """The made file: a line for a clause, a block for a definition of some lines."""
    for place, text in sorted(texts.items()):
        yield f"{place}:" + ("\n" + textwrap.indent(text, "    ") if "\n" in text else f" {text}")


def promises_of(text):
    """What the newest version says of promises."""
    newest = text.partition("\n## ")[2].partition("\n## ")[0]
    return newest.partition("\n### Promises\n")[2].partition("\n#")[0]


def named(text):
    """The changes that it names: the old text, the new one, "" if it is gone, and the places, none if it is a new name."""
    items = ITEM.findall(plain(promises_of(text)))
    parts = ((old, new or renamed, where or gone) for old, new, where, gone, renamed in items)
    return [(old, new, re.findall(r"`([^`]+)`", places)) for old, new, places in parts]


def after(changes, place, text):
    """A place and its text after these changes."""
    for old, new, places in changes:
        edges = r"(?<!\w)" * old[0].isalnum(), r"(?!\w)" * old[-1].isalnum()
        replaced = lambda text: re.sub(re.escape(old).join(edges), lambda _: new, text)
        if not places:
            place, text = replaced(place), replaced(text)
        elif place in places:
            text = plain(replaced(text))
    return place, text


def item(place, old, new):
    """What CHANGELOG may say of a change: of a text that remains only the part that changed, with as many words around it as single it out."""
    was, now = old.split(), new.split()
    begin = len(os.path.commonprefix([was, now]))
    end = len(os.path.commonprefix([was[begin:][::-1], now[begin:][::-1]]))
    for more in range(1, len(was) + 1) if new else ():
        first, last = max(begin - more, 0), max(end - more, 0)
        parts = [" ".join(it[first : len(it) - last]) for it in (was, now)]
        if after([(*parts, [place])], place, old)[1] == new:
            return f"- `{parts[0]}` became `{parts[1]}` in `{place}`, because"
    return f"- `{old}` is gone from `{place}`, because"


def unnamed(old, new, changes):
    """The texts that went or changed without a name, as CHANGELOG may name them."""
    for was, text in ((place, plain(text)) for place, text in old.items()):
        place, wanted = after(changes, was, text)
        found = plain(new.get(place, ""))
        if wanted != found and text != plain(new.get(was, "")):
            yield item(place, wanted, found)


def test_what_is_asked():
    for says, new, asked in CASES:
        newest = f"## 2, unreleased\n\n- Faster.\n\n### Promises\n\n{says}\n"
        older = "## 1\n\n### Promises\n\n- `0` became `n` in `gas law kept`, because it was.\n"
        changes = named(f"# Changes\n\n{newest}\n{older}")
        assert [*unnamed(kept(OLD), kept(new), changes)] == asked, says


def test_no_text_goes_or_changes_without_a_name():
    assert not [*unnamed(kept(KEPT.read_text()), promised(), named(CHANGELOG.read_text()))]


def test_changelog_says_what_is():
    section, now = promises_of(CHANGELOG.read_text()), promised()
    changes = named(CHANGELOG.read_text())
    assert section.count("\n- ") == len(changes), "an item that has no form"
    for old, new, places in changes:
        texts = {place: plain(now.get(place, "")) for place in places}
        assert not [it for it, text in texts.items() if (new not in text if new else old in text)]


def test_the_made_file_has_all():
    """Else `tests/documents/promises.py --write` writes it."""
    assert KEPT.read_text() == "\n".join(written(promised())) + "\n"


def write():
    new, changes = promised(), named(CHANGELOG.read_text())
    if missing := [*unnamed(kept(KEPT.read_text()), new, changes)]:
        sys.exit(
            "\n".join(
                ["CHANGELOG does not say below `### Promises` of the newest version:", *missing]
            )
        )
    KEPT.write_text("\n".join(written(new)) + "\n")


if __name__ == "__main__" and sys.argv[1:] == ["--write"]:
    write()

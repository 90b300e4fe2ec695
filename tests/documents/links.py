"""Looks up the links of the Markdown files that lead into the repository: the file must exist, and the
anchor must be a heading's, by the rule of hosts such as GitHub. Links to other places are not tried.
The table in docs/ARCHITECTURE.md must have the crates of crates.txt, and only these. Its lists of
where to put a change name only what exists, and for a gas and a key also places in page/ and python/.
The help of the program must have the commands and the columns of docs/FORMATS.md."""

import collections
import pathlib
import re
import urllib.parse

import needs
import pytest

ROOT = needs.ROOT
FENCE = re.compile(r"^ *(```|~~~).*?^ *\1", re.M | re.S)
CODE = re.compile(r"`[^`\n]*`")
LINK = re.compile(
    r"(?m)\]\(\s*<?([^)>\s]+)>?(?:\s+\"[^\"]*\")?\s*\)|^\[[^\]]+\]:\s*(\S+)|(?:src|href)=\"([^\"]+)\""
)
HEADING = re.compile(r"^#{1,6}[ \t]+(.*?)[ \t]*#*$", re.M)
NAMED = re.compile(r"<\w+ (?:id|name)=\"([^\"]+)\"")
SUFFIXES = (".rt", ".antt", ".py", ".js", ".mjs", ".c", ".h", ".md")
MADE = re.compile(r"/(?:out/|\.)")
ELSEWHERE = re.compile(r"[a-z][a-z0-9+.-]*:", re.I)


def documents():
    """The Markdown files, but for those that builds and tools keep."""
    paths = sorted(ROOT.rglob("*.md"))
    return [path for path in paths if not MADE.search(f"/{path.relative_to(ROOT)}")]


def anchors(text):
    """The anchors of a document: of a heading its letters, digits, hyphens and underscores in small letters, spaces as hyphens."""
    text = FENCE.sub("", text)
    found, seen = set(NAMED.findall(text)), collections.Counter()
    for heading in HEADING.findall(text):
        words = re.sub(r"\[([^\]]*)\]\([^)]*\)", r"\1", heading)
        anchor = re.sub(r"[^\w\- ]", "", words.lower()).replace(" ", "-")
        found.add(f"{anchor}-{seen[anchor]}" if seen[anchor] else anchor)
        seen[anchor] += 1
    return found


def links(text):
    """What a document links to, and the number of the line."""
    text = FENCE.sub(lambda found: "\n" * found.group().count("\n"), text)
    hidden = CODE.sub(lambda found: " " * len(found.group()), text)
    for found in LINK.finditer(hidden):
        yield next(filter(None, found.groups())), hidden.count("\n", 0, found.start()) + 1


def fault(document, link):
    """What is wrong with a link, or None."""
    path, _, anchor = urllib.parse.unquote(link).partition("#")
    above = ROOT if path.startswith("/") else document.parent
    target = (above / path.lstrip("/")).resolve() if path else document
    if ROOT not in (target, *target.parents) or not target.exists():
        return "leads to no file"
    if anchor and target.suffix == ".md" and anchor not in anchors(target.read_text()):
        return "names no heading"
    return None


def crates():
    """The crates that crates.txt lists, and the ones in the first column of the table in docs/ARCHITECTURE.md."""
    listed = set(re.findall(r"^(\w+)(?: staticlib)?:", (ROOT / "crates.txt").read_text(), re.M))
    table = (ROOT / "docs/ARCHITECTURE.md").read_text().split("| crate |")[1].split("\n\n")[0]
    cells = re.findall(r"^\| (`[^|]*)\|", table, re.M)
    return listed, {name for cell in cells for name in re.findall(r"`(\w+)`", cell)}


def changes():
    """The changes of docs/ARCHITECTURE.md with the places of each, where it says where to put a change: (heading, paths as written and on
    this disk, or None for what is not there). A file without a folder is in the folder that was named last, in its item or before the
    first."""
    section = (ROOT / "docs/ARCHITECTURE.md").read_text().split("## Where to put a change")[1]
    for change in re.split(r"^### ", section, flags=re.M)[1:]:
        places, above = [], ROOT
        for number, item in enumerate(re.split(r"^(?:- |\d+\. )", change, flags=re.M)):
            folder = above
            for name in re.findall(r"`([\w./-]+)`", item):
                is_path = "/" in name or pathlib.Path(name).suffix in SUFFIXES
                if not is_path and not re.fullmatch(r"(gas|tests)_\w+", name) or "NAME" in name:
                    continue
                bases = ROOT, ROOT / "crates", folder, folder.parent
                found = (base / name.removeprefix("C/") for base in bases)
                there = next((place for place in found if place.exists()), None)
                places.append((name, there))
                if there and is_path:
                    folder = there if there.is_dir() else there.parent
            if number == 0:
                above = folder
        yield change.split("\n")[0], places


@pytest.mark.parametrize("document", documents(), ids=lambda path: str(path.relative_to(ROOT)))
def test_links(document):
    found = (pair for pair in links(document.read_text()) if not ELSEWHERE.match(pair[0]))
    faults = {f"line {line}: {link}": fault(document, link) for link, line in found}
    assert not {where: why for where, why in faults.items() if why}


@pytest.mark.sources
def test_table_of_crates():
    listed, told = crates()
    assert listed == told


@pytest.mark.sources
@pytest.mark.parametrize(
    "change, places", changes(), ids=lambda it: it if isinstance(it, str) else ""
)
def test_where_to_put_a_change(change, places):
    assert not [name for name, there in places if not there]
    named = [there for _, there in places]
    if change in ("Another gas", "Another key of a scene"):
        for room in "crates", "python", "page":
            assert any(ROOT / room in place.parents for place in named), room


@pytest.mark.sources
def test_help_and_formats():
    """The commands and the columns of the program's help are the ones of docs/FORMATS.md, in order."""
    help_text = (ROOT / "crates/gas_tool_cli/src/help.rt").read_text()
    formats = (ROOT / "docs/FORMATS.md").read_text()
    table = formats.split("| column |")[1].split("\n\n")[0]
    rows = re.findall(r"^\| (`.*?) \|", table, re.M)
    columns = [name for row in rows for name in re.findall(r"`(\w+)`", row)]
    rows = re.findall(r"^  (\w+(?:, \w+)*)  +", help_text, re.M)
    assert columns == [name for names in rows for name in names.split(", ")] != []
    table = formats.split("## The command line")[1].split("\n\n## ")[0]
    commands = re.findall(r"^\| `(\w+)` \|", table, re.M)
    assert commands == re.findall(r'usage: "(?:\\\n)?fhpgas ([a-z]+)', help_text) != []

"""The functions in the sources with their contracts, and those that docs/PROVED.md links."""

import re
import typing

import needs

PROVED = needs.ROOT / "docs/PROVED.md"
LINKS = re.findall(r"^\[([\w:]+)\]: (\S+)$", PROVED.read_text(), re.M)
LINKED = {call: (PROVED.parent / path).resolve() for call, path in LINKS}
HEAD = re.compile(
    r"^(?:impl(?:<.*?>)? (?:[\w<>, ]+ for )?|pub trait )(\w+)|^\}"
    r'|^( *)(?:pub(?:\([^)]*\))? )?(?:extern "C" )?fn (\w+)',
    re.M,
)
TAKES = re.compile(r".*?(?=\s(?:requires|ensures)\b|\s\{|;$)", re.M | re.S)
CLAUSE = re.compile(r"\b(requires|ensures)\b(?: (\w+))?\s*\{|\{|;$", re.M)


def braced(text, at):
    """The text in the braces that open at `at`, and the place after them."""
    depth = 0
    for place in range(at, len(text)):
        depth += {"{": 1, "}": -1}.get(text[place], 0)
        if depth == 0:
            return text[at + 1 : place], place + 1
    raise ValueError("a brace is not closed")


def contract(text, place):
    """The clauses of the function whose head is at this place: each its word, its name, "" if it has none, and its text."""
    while (found := CLAUSE.search(text, place)) and found[1]:
        clause, place = braced(text, found.end() - 1)
        yield found[1], found[2] or "", clause


class Function(typing.NamedTuple):
    """A function as docs/PROVED.md calls it: what it takes and returns, its clauses as `contract` has them, and its text."""

    call: str
    takes: str
    clauses: list
    text: str


def functions(text):
    """The functions of a source."""
    text, owner = re.sub(r"//[^\n]*", "", text), ""
    heads = [*HEAD.finditer(text)]
    for head, end in zip(heads, [it.start() for it in heads[1:]] + [len(text)]):
        if head[3]:
            call = f"{owner}::{head[3]}" if head[2] and owner else head[3]
            takes, clauses = TAKES.match(text, head.end())[0], [*contract(text, head.end())]
            yield Function(call, takes, clauses, text[head.start() : end])
        else:
            owner = head[1] or ""

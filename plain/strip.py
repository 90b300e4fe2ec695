"""Rust from Rattle's sources: blanks what only the prover reads, and keeps every line where it is.

What goes: ghost items and fields, clauses (`requires`, `ensures`), `#[tactic]`, the derive of Drop.
What a function requires becomes the last paragraphs of its documentation.
What is written otherwise: the paths of Rattle's library become the shim's, an index `a[i]` becomes
`a[At(i)]`, calls that take an allocator get names of their own, `main` and tests make the runtime
that Rattle gives them, and a call for C takes each slice as a pointer and a length.
"""

import json
import re

# A comment, a text, a character, a path's first name, a word, white space, or one character more.
TOKEN = re.compile(
    r"""
    (?P<literal> //[^\n]*
      | (?:b|c)?r(?P<hashes>\#*)".*?"(?P=hashes)
      | [bc]?"(?:[^"\\]|\\.)*"
      | b?'(?:[^'\\\n]|\\(?:x[0-9a-fA-F]{2}|u\{[^}]*\}|.))')
    | (?P<library> (?<![\w:$.])(?:std|core)(?=::))
    | (?P<word> \w+)
    | (?P<space> \s+)
    | (?P<other> .)
    """,
    re.X | re.S,
)
GHOST = re.compile(r"^(?:[ \t]*///[^\n]*\n)*[ \t]*ghost[ \t]", re.M)
CLAUSE = re.compile(r"^[ \t]*(requires|ensures)[ \t]+(?:[^\s{}]+[ \t]+)?(?=\{)", re.M)
FUNCTION = re.compile(
    r'^[ \t]*(?:#\[doc = ".*"\] )?((?:pub(?:\(\w+\))? |const |extern "C" )*fn )', re.M
)
TACTIC = re.compile(r"#!?(?=\[tactic\()")
DERIVE = re.compile(r"#\[derive\(([^)]*)\)\]")
# Words after which `[` begins a value or a type. Elsewhere it is an index if no space is before it.
NOT_INDEXED = {"as", "dyn", "else", "if", "in", "match", "mut", "return"}
BRACKETS = {"{": "}", "[": "]"}
MACROS = "assert, assert_eq, eprint, eprintln, format, print, unreachable, vec"


class NotPlain(Exception):
    """A source has a form that is not understood."""


def blank(text: str) -> str:
    """The line feeds of a text alone."""
    return re.sub(r"[^\n]", " ", text)


def end_of_group(text: str, start: int) -> int:
    """The place after the bracket that closes the one at `start`. What is inside is a proof's, in
    which a quote is part of a name, so no text or character is looked for."""
    opening, depth = text[start], 0
    closing = BRACKETS[opening]
    for place in range(start, len(text)):
        depth += (text[place] == opening) - (text[place] == closing)
        if depth == 0:
            return place + 1
    line = text.count("\n", 0, start) + 1
    raise NotPlain(f"line {line}: {opening} is not closed")


def end_of_ghost(text: str, start: int) -> int:
    """The place after a ghost item or field, with the comma or semicolon that ends it."""
    brace, semicolon = text.find("{", start), text.find(";", start)
    if 0 <= semicolon < brace or brace < 0:
        return semicolon + 1
    end = end_of_group(text, brace)
    follows = re.compile(r"\s*[,;]").match(text, end)
    return follows.end() if follows else end


def without_proofs(text: str) -> str:
    """Blanks ghost items with their documentation, clauses, and what tells the prover how to go on."""
    while found := GHOST.search(text):
        end = end_of_ghost(text, found.end())
        text = text[: found.start()] + blank(text[found.start() : end]) + text[end:]
    while found := TACTIC.search(text):
        end = end_of_group(text, found.end())
        text = text[: found.start()] + blank(text[found.start() : end]) + text[end:]
    while found := CLAUSE.search(text):
        end = end_of_group(text, found.end())
        before = text[: found.start()]
        if found[1] == "requires":
            before = with_requirement(before, text[found.end() + 1 : end - 1])
        text = before + blank(text[found.start() : end]) + text[end:]
    return text


def with_requirement(text: str, formula: str) -> str:
    """A text whose last function has a formula as the last paragraph of its documentation."""
    place = max((found.start(1) for found in FUNCTION.finditer(text)), default=None)
    if place is None:
        raise NotPlain(f"a requirement of no function: {formula}")
    said = json.dumps(f"\n\nRequires `{' '.join(formula.split())}`.", ensure_ascii=False)
    return f"{text[:place]}#[doc = {said}] {text[place:]}"


def derived(found: re.Match[str]) -> str:
    """A `derive` without Drop, which is Rattle's leave to drop a value."""
    names = [name for name in re.findall(r"\w+", found[1]) if name != "Drop"]
    return f"#[derive({', '.join(names)})]" if names else ""


def is_indexed(before: str) -> bool:
    """Whether a `[` after this token is an index."""
    if re.fullmatch(r"[A-Za-z_]\w*", before):
        return before not in NOT_INDEXED
    return before in (")", "]", "?")


def with_marked_indices(text: str) -> str:
    """Writes an index as `a[At(i)]`, and the library's paths as the shim's."""
    tokens, opened, before = [], [], ""
    for found in TOKEN.finditer(text):
        token = found[0]
        if found.lastgroup == "library":
            tokens.append("shim")
        elif token == "[":
            opened.append(is_indexed(before))
            tokens.append("[At(" if opened[-1] else "[")
        elif token == "]":
            tokens.append(")]" if opened.pop() else "]")
        else:
            tokens.append(token)
        before = token
    if opened:
        raise NotPlain("a bracket is not closed")
    return "".join(tokens)


def with_named_calls(text: str) -> str:
    """Gives the calls that take an allocator, which Rust has without one, names of their own."""
    text = re.sub(
        r"\.(to_vec|collect|replace|repeat)((?:::<[^()]*>)?\((?:alloc\b|rt\.alloc\(\)))",
        r".\1_by\2",
        text,
    )
    return re.sub(r"\bScope<('\w+), &('\w+) \(\)>", r"Scope<\1, \2>", text)


def with_runtime(text: str) -> str:
    """`main` and tests make the runtime that they take."""
    text = re.sub(
        r"^fn main\((\w+: HostRuntime\)) -> ([^{]*?) \{",
        r"shim::macros::main!(start -> \2); fn start(\1 -> \2 {",
        text,
        flags=re.M,
    )
    return re.sub(
        r"(#\[test\]\s*fn \w+\(\s*)(\w+): HostRuntime,?(\s*\)[^{]*\{)",
        r"\1\3 let \2 = shim::rt::host();",
        text,
    )


def for_c(found: re.Match[str]) -> str:
    """A call for C, by the Rust function of the same name: each slice as a pointer and a length."""
    name, result = found[1], found[3] or ""
    takes, gives = [], []
    for parameter in re.sub(r"\s+", " ", found[2]).strip(" ,").split(","):
        argument, _, kind = (part.strip() for part in parameter.partition(":"))
        if not argument:
            continue
        if is_slice := re.fullmatch(r"&(mut )?\[(\w+)\]", kind):
            pointer, way = ("*mut", "slice_mut") if is_slice[1] else ("*const", "slice")
            takes.append(f"{argument}: {pointer} {is_slice[2]}, {argument}_length: usize")
            gives.append(f"shim::c::{way}({argument}, {argument}_length)")
        else:
            takes.append(f"{argument}: {kind}")
            gives.append(argument)
    call = f'pub unsafe extern "C" fn {name}_c({", ".join(takes)}){result}'
    body = f"{{ unsafe {{ {name}({', '.join(gives)}) }} }}"
    attribute = f'#[unsafe(export_name = "{name}")]'
    return f"\n{attribute} {call} {body} pub fn {name}({found[2]}){result}"


def with_calls_for_c(text: str) -> str:
    """Rattle passes a slice to C as two words. Rust has no such promise for a slice."""
    pattern = r'#\[unsafe\(no_mangle\)\]\npub extern "C" fn (\w+)\(([^)]*)\)(\s*->\s*\w+)?'
    return re.sub(pattern, for_c, text)


def with_prelude(text: str, attribute: str) -> str:
    """An attribute of the crate, and the shim's names, on the line of the first item."""
    place = re.match(r"(?:\s+|//![^\n]*|// [^\n]*|//\n|#!\[[^\]]*\])*", text).end()
    begins = text.rfind("\n", 0, place) + 1
    names = f"#[allow(unused_imports)] use shim::{{prelude::*, macros::{{{MACROS}}}}}; "
    return text[:begins] + attribute + names + text[begins:]


def plain(text: str, attribute: str = "") -> str:
    """The Rust of a Rattle source, line for line, with an attribute of its crate."""
    made = DERIVE.sub(derived, without_proofs(text))
    made = with_runtime(with_named_calls(with_marked_indices(made)))
    return with_prelude(with_calls_for_c(made), attribute)

#!/usr/bin/env python3
"""Tries the definitions: weakens, one at a time, the statements of the relations on which the contracts of `answer`, `perform` and `run`
rest. A statement is dropped, or any value stands in the place of a name, a bound or a default that it fixes. A weaker text counts as
refused only by a witness, a value that it admits and that a clause of an example in `examples.rt` refuses. weakened.toml has the witnesses,
with proofs that the weaker texts admit them, and the reasons for texts without one. A relation is a definition that returns a type. An
equation with a function is none: it fixes what it speaks of. Without a premise a relation says more, so no premise is taken away.

As a script, with --write and crates, it has the prover admit these values in copies of the crates, in minutes, and writes what came of it
to weakened.txt and to the table of docs/PROVED.md. The tests compare these with the sources."""

import collections
import pathlib
import re
import shutil
import subprocess
import sys
import tempfile
import tomllib
import typing

sys.path.append(f"{sys.path[0]}/../lib")
import definitions
import needs
import sources

HEADLINE = "answer", "Fault::status", "perform", "run"
KNOWN = tomllib.loads((needs.ROOT / "tests/documents/weakened.toml").read_text())
WITNESSES = {it["text"]: it for it in KNOWN["weaker"]}
TABLE = needs.ROOT / "tests/documents/weakened.txt"
FIXED = [  # what a statement may fix, by its type
    (r'codes "[\w-]+"', "List ℕ"),
    (r"(?<![.\w])\d+\b", "ℕ"),
    (r"\bNone\b", "Option ℕ"),
    (r"(?<=\) )\[\]", "List (List ℕ)"),
    (r"\(InvalidValue ∷ \[\]\)", "Kinds"),
    (r"\bDisplay\w+", "ErrorKind"),
    (r"\(default_\w+[^()]*\)", "ℕ"),
]
DATA = re.compile(r"\(\w+ : (?:[^()]|\([^()]*\))*\)")
HOLDS = re.compile(r"((?:IsOkAnd|IsSomeAnd|IfSome) (?:\w+|\([^()]*\)) \(λ \w+\. )(.*)\)")


class Weaker(typing.NamedTuple):
    """A weaker text of a relation: the equation or the field, what was done, and the text before and after."""

    crate: str
    file: str
    name: str
    case: str
    what: str
    old: str
    new: str

    def label(self):
        return f"{self.crate} {self.file}.{self.name}, {self.case}: {self.what}"


def top(text, mark):
    """The parts of a text that a mark divides outside of brackets."""
    parts, depth, begin = [], 0, 0
    for at, sign in enumerate(text):
        depth += (sign in "([{") - (sign in ")]}")
        if depth == 0 and text.startswith(mark, at):
            parts, begin = [*parts, text[begin:at]], at + len(mark)
    return [it.strip() for it in [*parts, text[begin:]]]


def freed(statement):
    """An atomic statement with any value in the place of one that it fixes. In a comparison that is as if it were dropped."""
    for pattern, kind in () if re.search(r"[≡≢≤<]|→", statement) else FIXED:
        for found in re.finditer(pattern, statement):
            text = statement[: found.start()] + "any" + statement[found.end() :]
            yield f"any `{found[0]}`", f"((any : {kind}) × ({text}))"


def weaker(statement):
    """What a statement becomes if it says less: what was done, and its text, ⊤ if it says nothing."""
    parts = top(statement, " × ")
    for at, part in enumerate(parts if len(parts) > 1 else ()):
        for what, text in weaker(part) if not DATA.fullmatch(part) else ():
            rest = [*parts[:at], *[text] * (text != "⊤"), *parts[at + 1 :]]
            yield what, " × ".join(
                [*rest, *["⊤"] * (len(rest) == 1 and bool(DATA.fullmatch(rest[0])))]
            )
    if len(parts) > 1 or statement == "⊤":
        return
    if statement[0] == "(" and statement[-1] == ")":
        yield from (
            (what, text if text == "⊤" else f"({text})") for what, text in weaker(statement[1:-1])
        )
        return
    yield f"no `{statement}`", "⊤"
    if holds := HOLDS.fullmatch(statement):
        yield from ((what, f"{holds[1]}{text})") for what, text in weaker(holds[2]))
    else:
        yield from freed(statement)


def statements(code):
    """The statements of a relation: the field or the left side of the equation, the statement, and the whole text."""
    head, *lines = code.split("\n")
    if "record" in head:
        fields = [re.fullmatch(r"  pub (\w+) : (.*)", line) for line in lines]
        for field in fields:
            is_named = any(re.search(rf"\b{field[1]}\b", it[2]) for it in fields)
            yield from () if is_named else [(field[1], field[2], field[0])]
    for found in re.finditer(r"^(\S.*?) =\s(.*(?:\n .*)*)", "\n".join(lines), re.M):
        yield found[1].partition(" ")[2], " ".join(found[2].split()), found[0]


def all_weaker():
    """The weaker texts of all relations that the contracts of the headline reach."""
    own, _ = definitions.read().below_calls(HEADLINE)
    for (crate, file, name), code in sorted((key, it.code) for key, it in own.items()):
        if re.search(r"^(?!.*(?:record|abbrev pub) \w+ : Type 0).*Type 0(?: where)?\n", code):
            for case, statement, old in statements(code):
                for what, text in weaker(statement):
                    new = (
                        old.replace(statement, text)
                        if statement in old
                        else f"{old.partition(' =')[0]} = {text}"
                    )
                    yield Weaker(crate, file, name, case, what, old, new)


def refused(text):
    """What the clauses of examples refuse: the function and the clause, and the statement that leads to ⊥."""
    for it in sources.functions(text):
        for _, name, clause in it.clauses:
            *let, body = top(" ".join(clause.split()), " in ")
            *premises, last = top(body, " → ")
            parts = (
                [premises]
                if last == "⊥"
                else [
                    [*premises, *top(part[1:-1], " → ")[:-1]]
                    for part in top(last, " × ")
                    if part.endswith("→ ⊥)")
                ]
            )
            yield from (
                (f"{it.call} {name}", " in ".join([*let, " → ".join(part)])) for part in parts
            )


SOURCE = """\
//! What a weaker text admits.
{uses}

pub fn admitted()
    ensures it {{ {value} }}
{{}}
"""
PROOF = """\
use Rattle.std.proofs.Common.{{[], ◌∷◌, ◌≡◌, ◌∙◌, ◌⊎◌, ℕ, List, Option, Some, None, inl, inr, refl, sym, ap, subst, arith, rules, map}}
{imports}
use Rattle.{crate}.proofs.weaker.w{number}.admitted.Goals as goal

pub returns : goal.returns
{unfolding}
returns c = record {{ it = {proof} }}
"""


def below(crate):
    """A crate and those of this repository that it uses."""
    uses = re.findall(r"^(\w+)[^:\n]*:(.*)", (needs.ROOT / "crates.txt").read_text(), re.M)
    found = {crate}
    for name, used in reversed(uses):  # the lower ones are before it
        found |= {it for it in used.split() if definitions.is_own(it)} if name in found else set()
    return found


def copy(crate, room):
    """The folder of a copy of a crate, beside those below it, without wrong bodies."""
    lines = (needs.ROOT / "crates.txt").read_text().splitlines(keepends=True)
    used = below(crate)
    (room / "crates.txt").write_text("".join(it for it in lines if re.split("[ :]", it)[0] in used))
    shutil.copy(needs.ROOT / "HANDLES", room)
    for it in used:
        ignored = shutil.ignore_patterns("out", "must-fail")
        shutil.copytree(definitions.CRATES / it, room / "crates" / it, ignore=ignored)
    return room / "crates" / crate


def replaced(text, words):
    """A text with other words in the place of these."""
    names = "|".join(map(re.escape, words))
    return re.sub(rf"\b(?:{names})\b", lambda found: words[found[0]], text) if words else text


def value_of(witness, examples):
    """What a clause of the examples refuses, or an instance of it, below the premises that are given for its values."""
    named = (it for clause, it in refused(examples) if clause == witness["refused_by"])
    value = next(it for it in named if it.endswith(witness["value"]))
    if "for" in witness:
        value = re.sub(r"^(?:\([^()]*:(?:[^()]|\([^()]*\))*\) )+→ ", "", value)
    given = [witness["given"]] if "given" in witness else []
    return " → ".join([*given, replaced(value, witness.get("for", {}))])


def weaken(folder, text, number):
    """Adds the weaker text as a file of its own, and copies of the files of specs/ that use it. Returns their names, by the old ones."""
    names, paths = {text.file}, sorted((folder / "specs").glob("[!W]*.antt"))
    names |= {
        path.stem for path in paths if f".{text.crate}.specs.{text.file}." in path.read_text()
    }
    others = {f"specs.{name}": f"specs.Weaker{number}{name}" for name in names}
    for name in names:
        specs = (folder / f"specs/{name}.antt").read_text()
        if name == text.file:
            specs = KNOWN["more"].get(text.crate, "") + specs.replace(text.old, text.new)
            assert specs.count(text.new) == 1, text
        (folder / f"specs/Weaker{number}{name}.antt").write_text(replaced(specs, others))
        with open(folder / "specs/Lib.antt", "a") as root:
            root.write(f"pub mod Weaker{number}{name}\n")
    return others


def claim(folder, text, number):
    """Adds the weaker text, and that it admits the value of its witness, with the proof."""
    crate, witness, others = text.crate, WITNESSES[text.label()], weaken(folder, text, number)
    examples = (folder / "src/examples.rt").read_text()
    uses = "\n".join(re.findall(r"^ghost use .*;", examples, re.M)) + KNOWN["uses"].get(crate, "")
    module, answers = (
        folder / "src/weaker",
        folder / f"proofs/weaker/w{number}/admitted/Answers.antt",
    )
    module.mkdir(exist_ok=True)
    answers.parent.mkdir(parents=True)
    source = SOURCE.format(uses=replaced(uses, others), value=value_of(witness, examples))
    (module / f"w{number}.rt").write_text(source)
    with open(module / "mod.rt", "a") as root:
        root.write(f"mod w{number};\n")
    proof = witness["proof"]
    for term in KNOWN["terms"].items():  # a term may name the ones below it
        proof = replaced(proof, dict([term]))
    imports = replaced(KNOWN["imports"][crate], others)
    known = {"imports": imports, "crate": crate, "number": number, "proof": proof}
    answers.write_text(PROOF.format(unfolding=KNOWN["unfolding"].get(crate, ""), **known))


def check(folder, *words):
    return subprocess.run(
        ["rt", "check", *words], cwd=folder, capture_output=True, text=True
    ).stdout


def admitted(crate, texts):
    """Those of a crate's weaker texts that admit the value of their witness."""
    with tempfile.TemporaryDirectory() as room:
        folder = copy(crate, pathlib.Path(room))
        with open(folder / "src/lib.rt", "a") as root:
            root.write("mod weaker;\n")
        for number, text in enumerate(texts):
            if "refused_by" in WITNESSES.get(text.label(), {}):
                claim(folder, text, number)
        said = check(folder, "--only", "weaker")
    proved = re.findall(rf"^fn {crate}::weaker::w(\d+)::admitted: proved$", said, re.M)
    return {texts[int(number)].label() for number in proved}


def in_its_place(text):
    """What comes of a crate over a weaker text."""
    with tempfile.TemporaryDirectory() as room:
        folder = copy(text.crate, pathlib.Path(room))
        path = folder / f"specs/{text.file}.antt"
        path.write_text(
            KNOWN["more"].get(text.crate, "") + path.read_text().replace(text.old, text.new)
        )
        said = check(folder)
    return "proves" if "\nlogic=proved " in said else "only the proof's text changed"


def outcomes(crate):
    """What came of each weaker text of a crate: the clause that refuses its witness, or else what the prover says, and the reason."""
    texts = [it for it in all_weaker() if it.crate == crate]
    done = admitted(crate, texts)
    for text in texts:
        known = WITNESSES.get(text.label(), {})
        if text.label() in done:
            yield text, f"refused: {known['refused_by']}"
        elif "refused_by" in known or not known:
            yield text, "open"
        else:
            yield text, f"{in_its_place(text)}: {known['reason']}"


def read_table():
    """What came of the weaker texts, by their labels."""
    lines = TABLE.read_text().splitlines()[1:] if TABLE.exists() else []
    return dict(line.split(" | ") for line in lines)


def summary(table):
    """The rows of the table in docs/PROVED.md: relations, with their weaker texts and the examples that refuse them."""
    relations = {}
    for label, outcome in table.items():
        name = label.partition(",")[0].rpartition(".")[2]
        relations.setdefault(name, []).append(outcome)
    for name, found in sorted(relations.items()):
        by = sorted({f"`{it.split()[1]}`" for it in found if it.startswith("refused: ")})
        others = collections.Counter(it for it in found if not it.startswith("refused: "))
        more = [f"{number} {it}" for it, number in others.items()]
        yield f"| `{name}` | {len(found)} | {len(found) - others.total()} | {', '.join(by + more)} |"


def test_each_weaker_text_was_tried():
    assert [*read_table()] == sorted(it.label() for it in all_weaker())


def test_examples_refuse_the_witnesses():
    for label, witness in WITNESSES.items():
        if "refused_by" in witness:
            crate = label.split()[0]
            value_of(witness, (definitions.CRATES / crate / "src/examples.rt").read_text())
            assert read_table()[label] == f"refused: {witness['refused_by']}"


def test_page_has_the_table():
    page = sources.PROVED.read_text()
    assert not [row for row in summary(read_table()) if row not in page]


def write(crates):
    labels = {it.label(): "open" for it in all_weaker()}
    table = labels | {label: it for label, it in read_table().items() if label in labels}
    for crate in crates:
        table |= {text.label(): it for text, it in outcomes(crate)}
    rows = (" | ".join(it) for it in sorted(table.items()))
    TABLE.write_text("\n".join([(needs.kit() or ["no kit"])[0], *rows]) + "\n")
    print("\n".join(summary(read_table())))


if __name__ == "__main__" and sys.argv[1:2] == ["--write"]:
    write(sys.argv[2:])

"""Definitions in specs/ of crates, ours and the kit's, and what they use. Definitions of `std` and `core`, Rattle's own words for numbers,
lists and options, are left out."""

import dataclasses
import re

LANGUAGE = {"core", "std", "std_alloc", "std_collections", "std_heap", "std_io"}
USE = re.compile(r"^\s*(?:pub |ghost )?use Rattle\.(\w+)\.specs\.([\w.]+)\.\{([^}]*)\}", re.M)
KINDS = r"(?:pub|abbrev|unfoldable|record|data)"
NAME = r"([^\s(){}:]+)"
WORD = re.compile(r"[^\s(){}\[\].,;]+")


@dataclasses.dataclass(eq=False)
class Definition:
    """A block of a file, which defines one name or more: its text, its code without comments, and the definitions that it uses, each by
    its crate, its file and its name."""

    text: str
    code: str
    uses: set

    def lines(self):
        return self.code.count("\n") + 1

    def words(self):
        return words_in(self.code)


def brought(text):
    """What `use` lines bring in, by the names here: a crate, a file and a name."""
    return {
        here.strip() or there: (crate, file, there)
        for crate, file, names in USE.findall(text)
        for there, _, here in (name.strip().partition(" as ") for name in names.split(","))
        if crate not in LANGUAGE and not file.startswith("declared")
    }


def words_in(code):
    return {*WORD.findall(code)}


def blocks(text):
    """The parts of a file that an empty line ends."""
    return re.split(r"\n\s*\n(?=\S)", text.strip("\n"))


def code_of(block):
    lines = re.sub(r"--[^\n]*", "", block).split("\n")
    return "\n".join(line for line in lines if line.strip())


def names_of(code):
    """The names that a block of code defines: definitions and, of a `data`, its cases."""
    head = code.split("\n")[0]
    found = re.findall(rf"^(?:{KINDS} )*{NAME}(?: [({{].*?)? :", head)
    if re.match(rf"(?:{KINDS} )*data ", head):
        found += re.findall(rf"^  (?:pub )?{NAME} :", code, re.M)
    if re.match(rf"(?:{KINDS} )*mutual", head):
        found += re.findall(rf"^  (?:{KINDS} )*{NAME}(?: [({{].*?)? :", code, re.M)
        found += re.findall(rf"^    (?:pub )?{NAME} :", code, re.M)
    return {name for name in found if name != "mutual"}


class Definitions:
    """The definitions of crates, whose folders `folder_of` gives. A crate is read when it is first asked for."""

    def __init__(self, folder_of):
        self.folder_of, self.known, self.passed_on, self.read = folder_of, {}, {}, set()

    def read_crate(self, crate):
        folder = self.folder_of(crate) / "specs"
        for path in sorted(folder.rglob("*.antt")):
            self.read_file(crate, ".".join(path.relative_to(folder).with_suffix("").parts), path)
        self.read.add(crate)

    def read_file(self, crate, file, path):
        text = path.read_text()
        here = brought(text)
        self.passed_on |= {(crate, file, name): key for name, key in here.items()}
        items = {block: names_of(code_of(block)) for block in blocks(text)}
        here |= {name: (crate, file, name) for names in items.values() for name in names}
        for block, names in items.items():
            code = code_of(block)
            uses = {here[word] for word in words_in(code) if word in here}
            self.known |= dict.fromkeys(
                ((crate, file, name) for name in names), Definition(block, code, uses)
            )

    def find(self, key):
        """Where a name is defined, past files that pass it on; None if no text says."""
        while key is not None and key not in self.known:
            if key[0] not in self.read:
                self.read_crate(key[0])
            else:
                key = self.passed_on.get(key)
        return key

    def reached(self, keys):
        """The definitions that these rest on, themselves included."""
        found, waiting = {}, list(keys)
        while waiting:
            key = self.find(waiting.pop())
            if key is not None and key not in found:
                found[key] = self.known[key]
                waiting += found[key].uses
        return found

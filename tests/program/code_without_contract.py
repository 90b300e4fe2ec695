"""Compares the code outside `answer`, which no contract speaks of, with what it may be. main passes
arguments, input and output of the runtime on to `answer` unchanged and ends with the fault's status:
its names are compared by what they mean, imports included. What watches a run has a clock and
standard error, and the crates below have threads and waiting, and no other power of the runtime."""

import re

import needs
import pytest

CRATES = needs.ROOT / "crates"
MAIN = """\
#![tactic(auto)]

fn is_terminal<R: std::rt::Files>(rt: &R, path: &str) -> bool {
    let Ok(metadata) = std::fs::metadata(rt, path) else {
        return false;
    };
    let device = metadata.rdev() >> 8 & 0xfff;
    metadata.file_type().is_char_device() && matches!(device, 4 | 5 | 136..=143)
}

fn tell<R: Print + Eprint>(rt: &R, fault: &gas_tool::Fault) {
    let _ = match fault {
        gas_tool::Fault::Usage(gas_tool::UsageFault::Help(text)) => print!(rt; "{text}"),
        gas_tool::Fault::Usage(gas_tool::UsageFault::Usage(text)) => eprint!(rt; "{text}"),
        _ => eprintln!(rt; "{fault}"),
    };
}

fn main(rt: HostRuntime) -> std::process::ExitCode {
    let words = std::env::args(&rt);
    let mut input = rt.reader();
    let prompts = is_terminal(&rt, "/proc/self/fd/0");
    let reports = is_terminal(&rt, "/proc/self/fd/2");
    let hints = std::thread::available_parallelism(&rt).is_ok_and(|count| count.get() > 1);
    let mut terminal = crate::terminal::Terminal::new(&rt, prompts, reports, hints);
    let mut out = rt.stdout();
    match gas_tool::answer(&rt, rt.alloc(), words, &mut input, &mut terminal, &mut out) {
        Ok(()) => std::process::ExitCode::SUCCESS,
        Err(fault) => {
            tell(&rt, &fault);
            std::process::ExitCode::from(fault.status())
        }
    }
}
"""
# What a file can name of the runtime's powers, and what it can after an import. The last three words go round names or the language.
SEEN = set("HostRuntime LibcRuntime Print Eprint Alloc unsafe extern macro_rules".split())
BROUGHT = SEEN | set(
    "Abort Clock CpuClock Env Files Input Log Memory Net Process Processes RandomSource Runtime "
    "Stderr Stdin Stdout Threads Wait *".split()
)
HELD = {  # all other files below the program have none of them
    "fhpgas/src/main.rt": {"HostRuntime", "Files", "Print", "Eprint"},
    "fhpgas/src/terminal.rt": {"Clock", "Eprint"},
    **dict.fromkeys(("gas_pipe", "gas_tool"), {"Threads", "Wait"}),
    "gas_scene": {"macro_rules"},
}


def imports(tree):
    """What the names of a `use` mean: {local name: its whole path}."""
    head, _, inside = tree.strip().removesuffix("}").partition("{")
    assert "{" not in inside, "braces in braces are not read"
    parts = [head + part.strip() for part in inside.split(",") if part.strip()] or [head]
    pairs = (part.partition(" as ")[::2] for part in parts)
    paths = ((path.removesuffix("::self"), name.strip()) for path, name in pairs)
    return {name or path.split("::")[-1]: path for path, name in paths}


def spelled_out(text):
    """Code without its comments and `use` lines, its names by their whole paths."""
    text = re.sub(r"^\s*//[^\n]*\n|//[^\n]*", "", text, flags=re.M)
    text = re.sub(r"^ *(?:pub(?:\([^)]*\))? )?mod \w+;", "", text, flags=re.M)
    uses = r"^ *(?:pub(?:\([^)]*\))? |ghost )?use ([^;]*);"
    names = {}
    for match in re.finditer(uses, text, re.M):
        if "ghost" not in match.group().split("use")[0]:
            names |= imports(match.group(1))
    code = re.sub(uses, "", text, flags=re.M)
    word = re.compile(r"(?<![\w.:])[A-Za-z_]\w*")
    return word.sub(lambda found: names.get(found[0], found[0]), code), names


def powers(path):
    """The powers that a file names in its code or imports, whatever it calls them there."""
    code, names = spelled_out(path.read_text())
    paths = {*re.findall(r"\b(?:std|core)(?:::\w+)+", code), *names.values()}
    paths = {path for path in paths if re.match("(std|core)(::(?!simd)|$)", path)}
    whole = (path.removesuffix("::rt").removeprefix("std::rt::") for path in paths)
    parts = {part for path in whole for part in path.split("::")}
    return parts & BROUGHT | set(re.findall(r"\w+", code)) & SEEN


def below():
    """The program's crate and all that it uses."""
    lines = dict(re.findall(r"^(\w+):(.*)", (needs.ROOT / "crates.txt").read_text(), re.M))
    found, waiting = set(), ["fhpgas"]
    while waiting:
        crate = waiting.pop()
        found.add(crate)
        waiting += [name for name in lines[crate].split() if name in lines and name not in found]
    return sorted(found)


def test_main():
    """main is what passes all on to gas_tool::answer."""
    assert spelled_out((CRATES / "fhpgas/src/main.rt").read_text())[0].split() == MAIN.split()


@pytest.mark.parametrize("crate", below())
def test_powers(crate):
    """A file has no more of the runtime than it may, and one that is named here no less."""
    for path in sorted((CRATES / crate / "src").rglob("*.rt")):
        name = str(path.relative_to(CRATES))
        may = HELD.get(name, set() if crate == "fhpgas" else HELD.get(crate, set()))
        assert powers(path) <= may, name
        assert powers(path) == may or name not in HELD, name

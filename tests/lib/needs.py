#!/usr/bin/env python3
"""What the tests share. They may import the package in python/. A script that imports this module continues in the tests' Python: of the
Python that tests/set_up/install.sh makes, the caller's and the system's, the one that lacks the fewest libraries of
tests/lib/requirements.txt. (pytest's tests run in the Python that runs pytest.) As a script it prints this Python, the versions of the
libraries, where install.sh makes its Python, and the lines of what is lacking, or with the word `own` the lines of what the Python that
runs it lacks."""

import importlib.metadata
import os
import pathlib
import re
import shutil
import signal
import subprocess
import sys

ROOT = pathlib.Path(__file__).resolve().parents[2]
LEFT_OUT = 77  # the exit status of a bash script that left something out
PATIENCE = 900  # seconds after which a test gives up on what never takes as long
# rt refuses a repository with a link in it, and a virtual environment has one
CACHE = pathlib.Path(os.environ.get("XDG_CACHE_HOME") or "~/.cache").expanduser()
VENV = CACHE / "fhpgas-tests"
SYSTEM = "/usr/bin/python3"  # to which Debian's packages belong
PYTHONS = (f"{VENV}/bin/python", sys.executable, SYSTEM)
WANTED = dict(
    line.split("==")
    for line in (ROOT / "tests/lib/requirements.txt").read_text().splitlines()
    if "==" in line
)
sys.path.append(str(ROOT / "python"))
if signal.getsignal(signal.SIGINT) is signal.SIG_IGN:  # as in the background of a script
    signal.signal(signal.SIGINT, signal.default_int_handler)


def launched():
    """The path of the program that ./fhpgas runs, which builds it first if it is older than its sources."""
    asked = subprocess.run([ROOT / "tools/program"], stdout=subprocess.PIPE, text=True)
    return asked.stdout.strip() or sys.exit("./fhpgas cannot be built")


def built_program(name="fhpgas"):
    """The path of a program: of fhpgas the one that FHPGAS names, an unpacked archive has, or the
    launcher takes where the kit is not here; of all others the one that rt leaves. The programs that a
    script starts use it too."""
    target = f"crates/{name}/out/{name}"
    path = ROOT / target
    if name == "fhpgas":
        is_archive = not (ROOT / "crates.txt").exists()
        own = ROOT / "fhpgas" if is_archive else path
        has_own = is_archive or shutil.which("rt")
        path = os.environ.get("FHPGAS") or (own if has_own else launched())
        path = pathlib.Path(path).absolute()
        is_new = is_archive or not subprocess.call(["make", "-sqC", ROOT, target])
        if path != own or not is_new:
            os.environ["FHPGAS"] = str(path)
    if not path.exists():
        sys.exit(f"{path} is missing: run make, or rt run in its crate, or let FHPGAS name one")
    return path


def kit():
    """The kit with its letter, and its folder of crates; None if there is no kit."""
    if not shutil.which("rt"):
        return None
    folder = pathlib.Path(printed(["rt", "doc"]).decode().strip()).parent
    return (folder / "KIT-ID").read_text().split()[0], folder / "rattle"


def free_memory():
    """Bytes."""
    free = re.search(r"MemAvailable: +(\d+) kB", pathlib.Path("/proc/meminfo").read_text())
    return int(free[1]) << 10


def printed(words, given=b"", **how):
    """What a program prints on standard output, which must end with 0, for an input of bytes."""
    words = [str(word) for word in words]
    return subprocess.run(words, input=given, capture_output=True, check=True, **how).stdout


def lacking(names=tuple(WANTED)):
    """The libraries that this Python lacks, all of them if it is too old."""
    found = {name for name in names if any(importlib.metadata.distributions(name=name))}
    return [name for name in names if sys.version_info < (3, 11) or name not in found]


def libraries(*more):
    """Skips a test or a file if Python lacks a library that the package wants, or one of these too."""
    if missing := lacking(("numpy", "scipy", "matplotlib", "pillow", *more)):
        sys.modules["pytest"].skip(f"Python lacks {', '.join(missing)}", allow_module_level=True)


def lacking_there(python):
    """The lines of what another Python lacks, all of them if it does not run."""
    asked = subprocess.run([python, __file__, "own"], capture_output=True, text=True)
    return asked.stdout.split() if asked.returncode == 0 else list(WANTED)


def lines():
    return " ".join(f"{name}=={WANTED[name]}" for name in lacking())


if __name__ == "__main__" and sys.argv[1:] == ["own"]:
    print(lines())
    sys.exit()
if lacking() and "pytest" not in sys.modules:
    best = min(filter(os.path.exists, PYTHONS), key=lambda python: len(lacking_there(python)))
    if best != sys.executable:
        os.execv(best, [best, *sys.argv])
os.environ.setdefault("CALLERS_PATH", os.environ["PATH"])  # with the caller's Rust
here = os.path.dirname(sys.executable)  # for the `python3` of commands
os.environ["PATH"] = f"{here}:{os.environ['PATH']}"
if sys.version_info < (3, 11):
    sys.exit("this Python is too old: run it by Python 3.11 or later")
if __name__ == "__main__":
    has = [f"{name} {importlib.metadata.version(name)}" for name in WANTED if name not in lacking()]
    own = f"Python {sys.version.split()[0]} with {', '.join(has)}"
    print(sys.executable, own, VENV, lines(), sep="\n")

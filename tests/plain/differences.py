"""Shows in what a plain build differs from the proved one, as plain/README.md lists it: what it says of itself, memory that is refused, the
forms of TOML, and the words of help and usage. Where the proved program is, it must do what is said of it."""

import ctypes
import os
import signal
import subprocess

import needs
import pytest

pytestmark = pytest.mark.usefixtures("checked")
PLAIN = needs.ROOT / "out/checked/fhpgas"
LIBRARY = needs.ROOT / "out/checked/libfhpgas.so"
PROVED = needs.ROOT / "crates/fhpgas/out/fhpgas"
BUILD = b"plain Rust, checked, not proved"
KINDS = {"plain": PLAIN} | ({"proved": PROVED} if PROVED.exists() else {})
MOST_REQUESTS = 400
REQUESTS = [
    "check",
    "run --generations 2 --stages 2",
    "run --generations 5 --stages 4 --threads 2",
    "coarse --generations 1 --stages 1 --block-width 2 --block-height 2",
]
SCENE = 'gas = "fhp1"\nchirality = "left"\ncells = ["........", "......01"]\n'
MAP = 'gas = "fhp1"\ncells = ["01"]\n'
READ = "gas fhp1 width 1 height 1 solid 0 particles 1\n"
# Scenes: the last line, and what the plain and the proved program say of it.
TOML = {
    "an escape of version 1.1": ('chirality = "\\x6ceft"', "not TOML", READ),
    "a table of version 1.1": ("none = {\n  a = 1,\n}", "not TOML", "unknown key"),
    "a time of version 1.1": ("none = 07:32", "not TOML", "unknown key"),
    "a leap second": ("none = 23:59:60", "not TOML", "unknown key"),
    "keys nested 100 deep": (f"[{'.'.join(100 * 'a')}]", "unknown key", "not TOML"),
    "a date that is none": ("none = 1979-02-30", "unknown key", "not TOML"),
    "a sign before 0x": ("seed = +0x10", READ, "not TOML"),
}
# Words, and a line of the plain and of the proved program's text.
TEXTS = """
--help |   -h, --help     Print help information |   -h, --help     Print help
run | For more information try '--help' | For more information, try '--help'.
run --generations x | error: Invalid value 'x' for WHERE | error: invalid value 'x' for WHERE
dance | error: The subcommand 'dance' wasn't recognized | error: unrecognized subcommand 'dance'
"""
TEXTS = TEXTS.replace("WHERE", "'--generations <G>': invalid digit found in string").strip()


def run(program, *words, text=SCENE, **environment):
    known = {"env": os.environ | environment, "capture_output": True, "timeout": needs.PATIENCE}
    return subprocess.run([program, *words], input=text.encode(), **known)


def ended(program, *words, **more):
    done = run(program, *words, **more)
    return done.returncode, done.stdout.decode(), done.stderr.decode()


def test_the_library_says_what_it_is():
    call = ctypes.CDLL(str(LIBRARY)).fhpgas_not_proved
    call.restype = ctypes.c_char_p
    assert call() == BUILD


@pytest.mark.parametrize("words", REQUESTS)
def test_memory_that_is_refused(compiled, words):
    """A request that Rust's crates make aborts the program, which has printed nothing."""
    refuse, statuses = compiled("refusal/refuse.c", "-shared", "-fPIC", "-ldl"), []
    for number in range(1, MOST_REQUESTS):
        done = run(PLAIN, *words.split(), LD_PRELOAD=str(refuse), REFUSE_FROM=str(number))
        statuses.append(done.returncode)
        if done.returncode == 0:
            break
        assert done.stdout == b"" and done.returncode in (3, -signal.SIGABRT), number
    assert statuses[-1] == 0 and {3, -signal.SIGABRT} <= {*statuses}


@pytest.mark.parametrize("kind", KINDS)
@pytest.mark.parametrize("name", TOML)
def test_toml(name, kind):
    line, reason = TOML[name][0], TOML[name][1 + (kind == "proved")]
    found = ended(KINDS[kind], "check", text=f"{MAP}{line}\n")
    assert found == ((0, READ, "") if reason == READ else (1, "", f"scene: {reason}\n"))


@pytest.mark.parametrize("kind", KINDS)
def test_what_is_nested_very_deep(kind):
    """Rust's reader of TOML calls itself at each level, and leaves the stack."""
    told = {"plain": (-signal.SIGSEGV, "", ""), "proved": (1, "", "scene: not TOML\n")}
    assert ended(KINDS[kind], "check", text="a = " + 10**6 * "[") == told[kind]


@pytest.mark.parametrize("kind", KINDS)
@pytest.mark.parametrize("line", TEXTS.split("\n"))
def test_texts_of_help_and_usage(line, kind):
    words, *wanted = line.split(" | ")
    status, printed, told = ended(KINDS[kind], *words.split())
    assert status == (0 if words == "--help" else 2)
    assert wanted[kind == "proved"] in (printed + told).split("\n")

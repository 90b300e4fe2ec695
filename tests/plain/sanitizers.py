"""Runs plain builds under sanitizers: the line's tests, the ring's and 60 random plans under ThreadSanitizer, and the same plans of the
trusting build under AddressSanitizer. A ring with one order relaxed must be reported."""

from __future__ import annotations

import itertools
import os
import pathlib
import random
import re
import shutil
import subprocess
import sys
from dataclasses import dataclass

import needs
import pytest
from fhpgas import gas_table

sys.path.append(str(needs.ROOT / "plain"))
import workspace

pytestmark = [pytest.mark.alone, pytest.mark.usefixtures("checked")]
PLANS = 60
OUT = needs.ROOT / "out/checked"
TARGET = "x86_64-unknown-linux-gnu"  # named, so that what cargo runs as it builds has no sanitizer
LIBRARIES = {"thread": "tsan", "address": "asan"}
# Rust's library is not instrumented: who frees what a scope shares has only a fence before, and results come over a channel of it.
SUPPRESSED = "race:Arc<std::thread::scoped::ScopeData\nrace:std*sync*mpmc\n"
# What newer compilers call and GCC's library has not yet.
CALLS = """\
#include <string.h>
void *__tsan_memcpy(void *to, const void *from, size_t n) { return memcpy(to, from, n); }
void *__tsan_memmove(void *to, const void *from, size_t n) { return memmove(to, from, n); }
void *__tsan_memset(void *to, int byte, size_t n) { return memset(to, byte, n); }
"""
# Functions of these crates, by Rust's names or by a linker's. The harness of Rust's tests shares each test with its thread, and reports of
# that have in one of the two stacks none.
OURS = re.compile(r"(?<![(/])(?:fhpgas|gas_[a-z]|\bring::|\dring\d|shim|tests_[a-z])")
ORDERS = "Ordering::Acquire", "Ordering::Release"  # of both ends of the ring


def run(*words: str | pathlib.Path, **more) -> subprocess.CompletedProcess[str]:
    return subprocess.run(words, capture_output=True, text=True, **more)


@dataclass
class Build:
    """A folder in which cargo builds with a sanitizer."""

    folder: pathlib.Path
    made: pathlib.Path
    environment: dict[str, str]

    def cargo(self, *words: str) -> subprocess.CompletedProcess[str]:
        offline = ["--offline"] if (self.folder / ".cargo").exists() else []
        more = ["--quiet", f"--target={TARGET}", *offline]
        words = words[0], *more, *words[1:]
        return run("cargo", *words, cwd=self.folder, env=self.environment)

    def program(self, *profile: str) -> pathlib.Path:
        built = self.cargo("build", "--package=engine", "--bin=fhpgas", *profile)
        assert built.returncode == 0, built.stderr
        return self.made / ("release" if profile else "debug") / "fhpgas"


def found_flags(sanitizer: str, folder: pathlib.Path, environment: dict[str, str]) -> str:
    """What rustc wants for a sanitizer, with its own library or else with GCC's."""
    (folder / "empty.rs").write_text("fn main() {}")
    (folder / "calls.c").write_text(CALLS)
    if shutil.which("cc"):
        run("cc", "-fno-builtin", "-fPIC", "-c", "calls.c", cwd=folder, check=True)
    mixed = "-Cunsafe-allow-abi-mismatch=sanitizer"
    before = f"-Zpre-link-arg=-Wl,--no-as-needed -Zpre-link-arg=-l{LIBRARIES[sanitizer]}"
    others = f"-Zexternal-clangrt {before} -Clink-arg={folder / 'calls.o'}"
    for more in "", mixed, others, f"{mixed} {others}":
        flags = f"-Zsanitizer={sanitizer} {more}"
        made = run("rustc", *flags.split(), "empty.rs", cwd=folder, env=environment)
        if made.returncode == 0 and run(folder / "empty").returncode == 0:
            return flags
    pytest.skip(f"rustc has no {sanitizer} sanitizer here")


def sanitized(sanitizer: str, proved: str | None = None) -> Build:
    """A workspace for a sanitizer. Sanitizers are not stable, so rustc must be told to take them."""
    made = OUT / sanitizer
    workspace.make(made / "workspace", proved, "tests_(belt|pipe)$")
    (made / "suppressed").write_text(SUPPRESSED)
    environment = os.environ | {
        "ASAN_OPTIONS": "detect_leaks=0",  # texts for clap live for ever
        "CARGO_PROFILE_RELEASE_LTO": "off",
        "CARGO_PROFILE_RELEASE_CODEGEN_UNITS": "16",
        "CARGO_PROFILE_RELEASE_OPT_LEVEL": "1",
        "CARGO_TARGET_DIR": str(made),
        "RUSTC_BOOTSTRAP": "1",
        "TSAN_OPTIONS": f"suppressions={made / 'suppressed'}",
    }
    environment["RUSTFLAGS"] = found_flags(sanitizer, made, environment)
    return Build(made / "workspace", made / TARGET, environment)


def races(told: str) -> list[str]:
    """The reports of two accesses by these crates."""
    reports = re.findall(r"^WARNING: ThreadSanitizer.*?(?=^={9}|\Z)", told, re.M | re.S)
    return [it for it in reports if all(map(OURS.search, it.split("\n\n")[:2]))]


def plans() -> list[tuple[list[str], str]]:
    """Words of plans and scenes."""
    rng, drawn = random.Random(5), []
    for _ in range(PLANS):
        stages = rng.randint(1, 24)
        words = ["run", f"--generations={rng.randint(1, 150)}", f"--stages={stages}"]
        words.append(f"--capacity={rng.choice([1, rng.randint(1, 40)])}")
        if rng.random() < 0.7:
            words.append(f"--threads={rng.randint(1, min(stages, 6))}")
        size = f"width = {rng.randint(1, 400)}\nheight = {rng.randint(1, 60)}"
        gas, seed = rng.choice([*gas_table.GASES]), rng.randrange(2**32)
        drawn.append((words, f'version = 2\ngas = "{gas}"\n{size}\nrate = 300\nseed = {seed}\n'))
    return drawn


def run_plans(build: Build, *profile: str) -> None:
    program = build.program(*profile)
    for words, scene in plans():
        done = run(program, *words, input=scene, env=build.environment)
        wanted = run(OUT / "fhpgas", *words[:2], "--stages=1", input=scene)
        assert not re.search(r"(WARNING|ERROR): \w+Sanitizer", done.stderr), (words, scene)
        assert (done.returncode, done.stdout) == (0, wanted.stdout), (words, scene)


def test_addresses() -> None:
    run_plans(sanitized("address", "these tests"), "--release")


@pytest.fixture(scope="module")
def threads() -> Build:
    return sanitized("thread")


def test_threads_of_plans(threads: Build) -> None:
    run_plans(threads)


def test_threads_of_the_lines_tests(threads: Build) -> None:
    words = "test --package=checks --lib --no-fail-fast -- --skip=two_to_the_26"  # minutes in which nothing can race
    done = threads.cargo(*words.split())
    assert done.stdout.count("test result: ok.") == 1, done.stderr
    assert races(done.stderr) == []


RELAXED = [("", ""), *itertools.product(ORDERS, ("PUSHES", "!PUSHES"))]


@pytest.mark.parametrize("order, end", RELAXED)
def test_threads_of_the_ring(threads: Build, tmp_path: pathlib.Path, order: str, end: str) -> None:
    """The races in the tests of the ring, in which perhaps one order of one end is relaxed."""
    for source in "tests/plain/ring.rs", "plain/shim/src/alloc.rs", "plain/shim/src/rtrb.rs":
        text = (needs.ROOT / source).read_text()
        if order and source.endswith("rtrb.rs"):
            assert text.count(order) == 1
            text = text.replace(order, f"if {end} {{ Ordering::Relaxed }} else {{ {order} }}")
        (tmp_path / source).parent.mkdir(parents=True, exist_ok=True)
        (tmp_path / source).write_text(text)
    words = f"rustc --edition=2024 --test tests/plain/ring.rs {threads.environment['RUSTFLAGS']}"
    made = run(*words.split(), cwd=tmp_path, env=threads.environment)
    assert made.returncode == 0, made.stderr
    done = run(tmp_path / "ring", "--skip=past_two_to_the_32", env=threads.environment)
    assert order or "test result: ok." in done.stdout
    assert bool(races(done.stderr)) == bool(order)

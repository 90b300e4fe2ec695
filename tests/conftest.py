"""What pytest's tests share. `pytest tests/program -k head_on` runs the cases of that name."""

import os
import shutil
import subprocess

import needs
import pytest

HAS_SOURCES = (needs.ROOT / "crates.txt").exists()  # an unpacked archive has none
OF_SOURCES = ["plain", "program/code_without_contract.py", "program/refused_memory.py"]
collect_ignore = [] if HAS_SOURCES else OF_SOURCES


def pytest_addoption(parser):
    parser.addoption("--scenes", type=int, default=3000, help="how many random scenes to read")
    parser.addoption("--areas", type=int, default=100, help="how many areas to compare with C")
    parser.addoption("--mebibytes", type=float, default=1, help="how large the large texts are")
    parser.addoption("--keep", action="store_true", help="the notebooks keep what they show")
    parser.addoption("--wheel", help="a wheel for Linux, instead of those of what make built")
    parser.addoption("--libraries", nargs=2, help="two libraries of include/fhpgas.h")
    parser.addoption("--gate", help="the log of rt ci, which tried the wrong bodies")


def pytest_collection_modifyitems(items):
    items[:] = [it for it in items if HAS_SOURCES or not it.get_closest_marker("sources")]


@pytest.hookimpl(hookwrapper=True)
def pytest_runtest_makereport(item):
    """Where CI is true what is skipped has failed, unless its mark says otherwise."""
    report = (yield).get_result()
    if not item.get_closest_marker("may_be_left_out"):
        refuse_skip(report)


@pytest.hookimpl(hookwrapper=True)
def pytest_make_collect_report():
    refuse_skip((yield).get_result())


def refuse_skip(report):
    if report.skipped and os.environ.get("CI") == "true":
        report.outcome, report.longrepr = "failed", f"left out: {report.longrepr[2]}"


@pytest.fixture(scope="session")
def program():
    """The path of the program that FHPGAS names, rt left or the launcher takes."""
    return needs.built_program()


@pytest.fixture(scope="session")
def checked():
    """Skips a test if plain Rust has not built what looks at each index."""
    if not (needs.ROOT / "out/checked/fhpgas").exists():
        pytest.skip("plain/build.sh out/checked checked was not run")


@pytest.fixture(scope="session")
def tool():
    """Skips a test if a command is missing."""
    return lambda name: shutil.which(name) or pytest.skip(f"{name} is missing")


@pytest.fixture(scope="session")
def compiled(tool, tmp_path_factory):
    """Compiles a C source of tests/program, and returns the path of what was made."""

    def made(source, *words):
        tool("cc")
        path = tmp_path_factory.mktemp("c") / "made"
        words = ["cc", "-Wall", "-o", path, needs.ROOT / "tests/program" / source, *words]
        subprocess.run(words, check=True)
        return path

    return made


@pytest.fixture(scope="session")
def by_bytes(compiled):
    """The C program of one byte a cell."""
    return compiled("oracles/bytes.c", "-O3", "-march=x86-64-v2", "-pthread")


@pytest.fixture(scope="session")
def memory():
    """Skips a test if so many gigabytes are not free."""
    return lambda least: needs.free_memory() >= least << 30 or pytest.skip("too little memory")

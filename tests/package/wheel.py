"""Builds the package's wheels, or takes the one that is named, and the source distribution, installs each into an empty folder outside the
repository, and runs all commands from there: the wheel for Linux alone, the one without program and engine as on other systems. A clone
that has a plain build alone is installed as it is, and of two wheels pip must take the proved one."""

import ast
import functools
import os
import pathlib
import platform
import re
import shutil
import subprocess
import sys
import zipfile

import needs
import pytest

needs.libraries("pip", "setuptools", "wheel")

SCENE = 'gas = "fhp1"\nchirality = "left"\nseed = 1\nwidth = 64\nheight = 36\nrate = 300\n'
CELLS = "generation 1 particles 2\n....02..\n........\n##10....\n"
TABLE = """\
  col   row    fluid particles         px         py
    0     0       12         8          3          1
"""
# Commands of fhpgas-tools, and what they print or what begins the file that they write. The first work everywhere, the second want program
# or engine.
ALONE = """
--version | fhpgas-tools
resume cells.toml cells.txt | generation = 1
draw discs --width 64 --height 36 --disc 20 16 5 --filling 0.2 | width = 64
numbers --filling 0.2 --speed 0.3 --length 80 | mach
explain wrong.toml | unknown key
picture particles a.png cells.txt --gas fhp1 --size 4 3 | a.png: \x89PNG
picture speed b.svg table --gas hpp --size 4 3 --block 4 3 | b.svg: <?xml
page --no-browser | site/fhpgas/page/fhpgas.html
"""
BUILT = """
picture density c.png scene.toml | c.png: \x89PNG
film scene.toml d.gif --every 2 --until 4 | d.gif: GIF8
drive scene.toml 20 10 --flow 0.1 | velocity
over-time scene.toml 4 2 | generation 4
over-seeds scene.toml --seeds 2 --generations 1 | u_error
long-run scene.toml 4 2 kept.toml | kept.toml: version
how-long scene.toml 9 --seconds 1 | MLUPS
"""
ALONE, BUILT = ([line.split(" | ") for line in text[1:-1].split("\n")] for text in (ALONE, BUILT))
OLD = "import sys; sys.version_info = (3, 10, 12); sys.argv[0] = {!r}; import fhpgas"
NOTICES = "LICENSE-MIT", "LICENSE-APACHE", "NOTICES.md"
SOURCES = "python page docs/NOTICES.md LICENSE-MIT LICENSE-APACHE CITATION.cff MANIFEST.in pyproject.toml setup.py".split()
PLAIN = needs.ROOT / "out/checked"


def pip(*words):
    subprocess.run([sys.executable, "-m", "pip", *words, "--no-index", "--quiet"], check=True)


class Room:
    """A folder that has what pip made of a file, and a few inputs, and nothing of this repository."""

    def __init__(self, folder, file):
        self.folder, self.site = folder, folder / "site"
        words = "install --root-user-action=ignore --no-deps --no-build-isolation --target".split()
        folder.mkdir()
        pip(*words, self.site, file)
        cells = 'gas = "fhp1"\ncells = ["..01....", "........", "##20...."]\n'
        files = {"scene.toml": SCENE, "wrong.toml": SCENE + "colour = 1\n", "table": TABLE}
        for name, text in (files | {"cells.txt": CELLS, "cells.toml": cells}).items():
            (folder / name).write_text(text)
        (folder / "elsewhere").mkdir()
        lacks = "import os\ndel os.memfd_create, os.sched_getaffinity\n"
        (folder / "elsewhere/sitecustomize.py").write_text(lacks)

    def ran(self, *words, folders=()):
        """A command's status, its output and its error output, where nothing but Debian is on the PATH."""
        path = f"{self.site}/bin:{os.path.dirname(sys.executable)}:/usr/bin:/bin"
        places = ":".join(map(str, (*folders, self.site)))
        known = {"PATH": path, "PYTHONPATH": places, "HOME": str(self.folder)}
        known = {"env": known, "cwd": self.folder, "capture_output": True, "text": True}
        done = subprocess.run(words, **known)
        return done.returncode, done.stdout, done.stderr

    def works(self, command, wanted, folders=()):
        status, out, err = self.ran("fhpgas-tools", *command.split(), folders=folders)
        name, _, begins = wanted.partition(": ")
        assert status == command.startswith("explain"), err
        assert begins or wanted in out
        if begins:
            assert (self.folder / name).read_text("latin-1").startswith(begins)
            (self.folder / name).unlink()

    def refuses(self, why, *words, folders=(), is_traced=False):
        """A command that must end with one line that says why, which follows a traceback where Python raised it."""
        status, out, err = self.ran(*words, folders=folders)
        assert status and not out and why in err.split("\n")[-2]
        assert err.count("\n") == 1 or is_traced


def tried(room, is_built):
    """What an installed package does, with and without what only Linux has."""
    for folders in (), (room.folder / "elsewhere",):
        for command, wanted in ALONE + BUILT * is_built:
            room.works(command, wanted, folders)
        for command, _ in [] if is_built else BUILT:
            why, words = "this package has none for Linux on x86_64", command.split()
            room.refuses(why, "fhpgas-tools", *words, folders=folders)
        status, out, err = room.ran("python3", "-m", "fhpgas", "--help", folders=folders)
        assert status == 0 and "usage: " in out
    commands = re.findall(r"^    ([a-z]+(?:-[a-z]+)*) +\S", out, re.M)
    assert commands and {*commands} <= {command.split()[0] for command, _ in ALONE + BUILT}
    status, out, err = room.ran("fhpgas", "--version")
    assert out.startswith("fhpgas ") if is_built else (status, err.count("\n")) == (70, 1)
    for first, is_traced in (("-m", False), ("script.py", True)):
        words = sys.executable, "-c", OLD.format(first)
        room.refuses("needs Python 3.11", *words, is_traced=is_traced)
    ast.parse((room.site / "fhpgas/__init__.py").read_text(), feature_version=(3, 7))


def declared(wheel, is_built, has_notices=True):
    """What a wheel says of itself, and the notices that it has."""
    with zipfile.ZipFile(wheel) as found:
        names = found.namelist()
        info = names[-1].split("/")[0]
        told, about = (found.read(f"{info}/{name}").decode() for name in ("WHEEL", "METADATA"))
        files = [found.read(name) for name in names]
    binaries = b"".join(each for each in files if each.startswith(b"\x7fELF"))
    versions = [(2, 17), *re.findall(rb"GLIBC_(\d)\.(\d+)", binaries)]
    tag = "manylinux_{}_{}_x86_64".format(*max(tuple(map(int, pair)) for pair in versions))
    tag = tag if is_built else "any"
    assert wheel.name.endswith(f"-py3-none-{tag}.whl")
    assert f"Tag: py3-none-{tag}\n" in told and ("Root-Is-Purelib: true" in told) != is_built
    assert {f"{info}/{name}" for name in NOTICES} <= {*names} and "fhpgas/py.typed" in names
    page = "\nClassifier: ", "\nDescription-Content-Type: text/x-rst", "\n    import fhpgas"
    assert all(text in about for text in page)
    assert "is proved" not in about and "roved." not in about.replace("not proved.", "")
    kind = re.search(r"-(\d\w+)-py3-", wheel.name)
    wanted = ("0plain" if b"plain Rust, " in binaries else "1proved") if is_built else None
    assert (kind and kind[1]) == wanted
    parts = [name for name in names if name.startswith("fhpgas/licences/")]
    assert bool(parts) == (is_built and has_notices)


def test_for_all_systems(tmp_path):
    """The wheel without program and engine, and the source distribution."""
    subprocess.run([needs.ROOT / "tools/wheel.sh", tmp_path, "any"], check=True)
    (source,), (wheel,) = tmp_path.glob("*.tar.gz"), tmp_path.glob("*.whl")
    declared(wheel, False)
    pip("wheel", "--no-deps", "--no-build-isolation", "-w", tmp_path / "again", source)
    with zipfile.ZipFile(wheel) as one, zipfile.ZipFile(tmp_path / "again" / wheel.name) as other:
        assert {*one.namelist()} == {*other.namelist()}
    tried(Room(tmp_path / "room", source), False)


@pytest.mark.may_be_left_out  # a wheel of plain Rust is made and tried with its archive
def test_for_linux(program, request, tmp_path):
    """The wheel that --wheel names, or those of what make built."""
    if named := request.config.getoption("wheel"):
        wheels = [pathlib.Path(named)]
    elif any((needs.ROOT / "python/fhpgas").glob("libfhpgas-x86-64-*.so")):
        built, made = tmp_path / "built", tmp_path / "made"
        subprocess.run([needs.ROOT / "tools/built.sh", made, program], check=True)
        subprocess.run([needs.ROOT / "tools/wheel.sh", built, made], check=True)
        wheels = sorted(built.glob("*.whl"), key=lambda it: it.stat().st_size)
        assert any("_2_17_" in it.name for it in wheels[:-1])  # the engine's, for older systems
    else:
        pytest.skip("python/fhpgas has no engine that make built")
    declared(wheels[-1], True)
    tried(Room(tmp_path / "room", wheels[-1]), True)


def test_a_plain_clone_is_installed_as_it_is(checked, tmp_path):
    """As `pip install .` does. A wheel that has the proved kind in its name is taken before it."""
    clone, hidden = tmp_path / "clone", "fhpgas-* libfhpgas-* engine.js *.egg-info __pycache__"
    for name in SOURCES:
        (clone / name).parent.mkdir(parents=True, exist_ok=True)
        copy = functools.partial(shutil.copytree, ignore=shutil.ignore_patterns(*hidden.split()))
        (copy if (needs.ROOT / name).is_dir() else shutil.copy)(needs.ROOT / name, clone / name)
    (clone / "out/plain").mkdir(parents=True)
    shutil.copy(PLAIN / "fhpgas", clone / "out/plain")
    shutil.copy(PLAIN / "libfhpgas.so", clone / f"python/fhpgas/libfhpgas-{platform.machine()}.so")
    shutil.copy(needs.ROOT / "fhpgas", clone)
    room = Room(tmp_path / "room", clone)
    for command, wanted in BUILT[:1] + [["--version", "program plain Rust, checked, not proved"]]:
        room.works(command, wanted)
    status, out, err = room.ran("sh", "-c", "fhpgas run --generations 0 < cells.toml")
    assert (status, out.split("\n")[1]) == (0, "..01....")
    plain = tmp_path / "plain"
    pip("wheel", "--no-deps", "--no-build-isolation", "-w", plain, clone)
    (wheel,) = plain.glob("*.whl")
    declared(wheel, True, has_notices=False)
    shutil.copy(wheel, plain / wheel.name.replace("0plain", "1proved"))
    pip("download", "--no-deps", "--find-links", plain, "--dest", tmp_path / "taken", "fhpgas")
    (taken,) = (tmp_path / "taken").iterdir()
    assert "1proved" in taken.name

"""Runs the commands of the documents as they are printed: a block marked `sh` must end with 0, and if
the block after it is marked `text`, it must print that. The package is on the path. The blocks of a
document follow one another in one folder. Those of FIRST are tried by the launcher too, as in a clone
that has a plain build and no kit. README's lines of Python must draw the picture below them. Each
message that docs/TROUBLE.md explains must stand in a source, and each start of the page that LESSON
and GUIDE name in the page's."""

import importlib.metadata
import os
import pathlib
import platform
import re
import shutil
import subprocess
import sys
import tempfile

import needs
import pytest

PLAIN = needs.ROOT / "out/checked"
README = needs.ROOT / "README.md"
FIRST = "README.md", "GUIDE.md", "FORMATS.md"
DOCUMENTS = [README, *sorted((needs.ROOT / "docs").glob("*.md"))]
SOURCES = [str(it.relative_to(needs.ROOT)) for it in (needs.ROOT / "crates").glob("*/src")]
BLOCK = re.compile(r"^```(\w*)\n(.*?)^```$", re.M | re.S)


@pytest.fixture
def room(tmp_path):
    needs.libraries()
    for name in "scenes", "experiments":
        (tmp_path / name).symlink_to(needs.ROOT / name)
    return tmp_path


def follow(document, room, environment):
    """Runs the blocks of a document, each in the folder in which the one before ended. Those of the
    guide write nothing into the folder of the clone."""
    blocks, before = BLOCK.findall(document.read_text()), {*room.iterdir()}
    known = {"capture_output": True, "text": True, "timeout": needs.PATIENCE, "env": environment}
    with tempfile.NamedTemporaryFile("r") as place:
        here = room
        for (kind, commands), (after, text) in zip(blocks, blocks[1:] + [("", "")]):
            if kind == "sh":
                words = ["bash", "-ec", f"{commands}pwd > {place.name}"]
                ran = subprocess.run(words, cwd=here, **known)
                assert (ran.returncode, ran.stderr) == (0, ""), commands
                assert after != "text" or ran.stdout == text, commands
                here = pathlib.Path(place.name).read_text().removesuffix("\n")
    assert document.name != "GUIDE.md" or {*room.iterdir()} == before


@pytest.mark.parametrize("document", DOCUMENTS, ids=lambda path: path.name)
def test_by_program(program, room, document):
    for name, path in {"python": needs.ROOT / "python", "fhpgas": program}.items():
        (room / name).symlink_to(path)
    follow(document, room, os.environ | {"PYTHONPATH": str(needs.ROOT / "python")})


def with_launcher(room):
    """Makes a clone with a plain build, and no kit, where the documents have the program. Returns the environment of their commands."""
    for name in "Makefile", "crates.txt", "include", "plain", *SOURCES:
        (room / name).parent.mkdir(parents=True, exist_ok=True)
        (room / name).symlink_to(needs.ROOT / name)
    shutil.copy(needs.ROOT / "fhpgas", room)
    shutil.copytree(needs.ROOT / "tools", room / "tools")
    built = shutil.ignore_patterns("__pycache__", "fhpgas-*", "libfhpgas-*")
    shutil.copytree(needs.ROOT / "python", room / "python", ignore=built)
    shutil.copy(PLAIN / "libfhpgas.so", room / f"python/fhpgas/libfhpgas-{platform.machine()}.so")
    (room / "out/plain").mkdir(parents=True)
    shutil.copy(PLAIN / "fhpgas", room / "out/plain")
    folders = os.environ["PATH"].split(":")
    path = ":".join(it for it in folders if not (pathlib.Path(it) / "rt").exists())
    known = {name: value for name, value in os.environ.items() if name != "FHPGAS"}
    return known | {"PATH": path, "PYTHONPATH": str(room / "python")}


@pytest.mark.sources
@pytest.mark.parametrize("name", FIRST)
def test_by_launcher(checked, room, name):
    document = next(it for it in DOCUMENTS if it.name == name)
    follow(document, room, with_launcher(room))


def test_first_picture(program, room):
    lines, name = re.search(
        r"```python\n(.*?)```.*?images/(\w+\.png)", README.read_text(), re.S
    ).groups()
    known = os.environ | {"PYTHONPATH": str(needs.ROOT / "python")}
    subprocess.run([sys.executable, "-c", lines], cwd=room, env=known, check=True)
    if importlib.metadata.version("matplotlib") == needs.WANTED["matplotlib"]:
        from matplotlib.testing.compare import compare_images

        drawn, kept = room / name, needs.ROOT / "docs/images" / name
        assert compare_images(str(kept), str(drawn), tol=1) is None


def words_of_sources():
    """The sources that print messages, with literals that Python or Rust joins joined."""
    folders = {"python/fhpgas": "*.py", "page/src": "*.js", "crates": "*/src/*.rt", "tools": "*"}
    paths = [path for folder, name in folders.items() for path in (needs.ROOT / folder).glob(name)]
    others = "fhpgas", "Makefile", "plain/build.sh", "tests/set_up/install.sh", "page/fhpgas.html"
    paths += [needs.ROOT / name for name in others]
    texts = [path.read_text(errors="replace") for path in paths if path.is_file()]
    return [re.sub(r'"\s*f?"', "", " ".join(text.split())) for text in texts]


@pytest.fixture(scope="module")
def sources():
    return words_of_sources()


def messages():
    page = (needs.ROOT / "docs/TROUBLE.md").read_text()
    for item in re.findall(r"^- (`.*?`(?:, `.*?`)*):", " ".join(page.split("\n  ")), re.M):
        yield from re.findall(r"`(.*?)`", item)


@pytest.mark.sources
@pytest.mark.parametrize("message", messages())
def test_message(sources, message):
    """The parts between `..` stand in one file, in this order."""
    parts = (re.escape(part.strip()) for part in message.split(".."))
    assert any(map(re.compile(".{1,80}?".join(parts)).search, sources))


def starts():
    """The starts of the page that docs/LESSON.md and docs/GUIDE.md name."""
    lesson, guide = ((needs.ROOT / f"docs/{name}.md").read_text() for name in ("LESSON", "GUIDE"))
    named = lesson + guide.partition("## It moves")[2].split("```")[0]
    return [" ".join(name.split()) for name in re.findall(r'"([^"]+)"', named)]


@pytest.mark.parametrize("name", starts())
def test_start(name):
    assert f'"{name}": {{' in (needs.ROOT / "page/src/presets.js").read_text()

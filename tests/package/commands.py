"""Tries the pictures and the command line of the package in python/: what they show and print beside hand-made values, the package's
functions and the program, and what they refuse."""

import contextlib
import io
import itertools
import os
import pathlib
import re
import shutil
import signal
import subprocess
import sys
import time
import venv
from unittest import mock

import needs
import pytest
import second_reader
from package_case import AREA, fault

import fhpgas
import matplotlib
import numpy as np
from fhpgas import Size, __main__, pictures
from matplotlib.figure import Figure
from PIL import Image, ImageSequence

matplotlib.use("agg")
START = fhpgas.Lattice.load(AREA)
NAMES = "draw explain picture film page how-long resume long-run drive over-time over-seeds numbers"
COMMANDS = ["", "draw discs", *NAMES.split()]
# Statuses, commands that are refused with them, and a part of what is said.
REFUSED = """\
2 numbers --length 9 --filling 1e-300 --speed 0.1 | 1e-300
2 numbers --length 9 --filling 1 --speed 0.1 | 0.9999
2 numbers --length 9 --filling 0.2 --speed nan | nan
2 numbers --length 9 --filling 0.2 --speed -1 | -1
2 numbers --length 9 --filling 0.2 --speed 5 | 5
2 numbers --length 9 --filling 0.2 | --filling and --speed
2 numbers --length 9 --table a.toml --speed 1 | or a --table
2 numbers --length 9 --table table | --scene
2 numbers --length 9 --table table --gas fhp1 | --size
2 numbers --length 9 --table table --scene a.toml | --block
2 numbers --length 9 --table three | --gas
2 numbers --length 0 --filling 0.2 --speed 0.1 | --length
2 numbers --filling 0.2 --speed 0.1 --length inf | inf
2 picture speed a.png a.toml --low nan | nan
2 picture speed a.png a.toml --low 1 --high 0 | --low 1 is not below --high 0
2 picture speed a.jpg a.toml | a.jpg is written as .png
2 picture heat a.png a.toml | heat
2 picture speed no/a.png a.toml | the folder of no/a.png
2 picture speed a.png a.toml --smooth -1 | -1
2 picture speed a.png table | table does not name its gas
2 picture speed a.png three | three does not name its gas
2 picture speed a.png table --gas fhp1 --size 66 9 | --block COLUMNS ROWS
2 picture speed a.png a.toml --block 0 9 | 0
2 film a.toml a.png --every 1 --until 2 | .gif
2 film a.toml a.gif --every 3 --until 10 | no multiple
2 film a.toml no/a.gif --every 1 --until 2 | the folder of no/a.gif
2 film a.toml a.gif --every 0 --until 2 | 0
2 film a.toml a.gif --every 1 --until 2 --flow 0.1 --force 0.1 | --force or --flow
2 film a.toml a.gif --every 1 | --until
2 draw  | SHAPE
2 draw cubes | cubes
2 draw blocks --width 0 | 0
2 draw blocks --height 65537 | 65537
2 draw blocks --filling 1.001 | 1.001
2 draw blocks --seed -1 | -1
2 draw blocks --gas fhp2 | fhp2
2 draw blocks --wind x | x
2 draw blocks --wind 0.1 0.2 0.3 | one northwards
2 draw blocks --patch 0 0 1 1 1.1 | a filling of 0 to 1
2 draw blocks --patch 0.5 0 1 1 1 | whole columns
2 draw discs --disc 0 0 -1 | -1
2 draw porous --share 1.01 | 1.01
2 draw polygons --polygon nan 1 2 3 4 5 | nan
2 draw polygons --polygon 1 2 3 4 5 6 7 | two numbers each
2 draw bitmap a.png --pixel 1e308 | 1e308
2 draw blocks --rate 200 | --rate
2 draw nozzle --throat x | x
2 drive a.toml 10 5 | --force or --flow
2 drive a.toml 10 3 --flow 0.1 | no multiple
2 drive a.toml 10 0 --flow 0.1 | 0
2 over-time a.toml 10 3 | no multiple
2 over-seeds a.toml --generations 1 --seeds 1 | 1
2 how-long a.toml -1 | -1
2 how-long a.toml 1e3 | 1e3
2 over-seeds --generations 1 --drawn discs --seed 2 | --seed
2 long-run a.toml 10 0 kept | 0
2 long-run a.toml 10 4 ./a.toml | a.toml is the scene itself
2 over-time later.toml 1 1 | later.toml has generation 3, which is past 1
1 explain no.toml | no.toml: No such file
1 how-long - 10 | scene: missing key
1 resume a.toml no.txt | no.txt
1 film no.toml a.gif --every 1 --until 1 | no.toml
1 numbers --gas hpp --length 9 --filling 0.2 --speed 0.1 | hpp has no viscosity
1 numbers --table - --length 9 --scene a.toml --block 8 9 | scene: missing key
1 numbers --table empty.toml --length 9 | empty.toml has no particle
1 numbers --table cut --length 9 --scene a.toml --block 11 9 | cut: this is no whole table
1 picture speed a.png less --scene a.toml | less: 
1 draw blocks --block 60 0 5 1 | a block leaves
1 picture speed a.png broken.npz | broken.npz: this is no whole .npz file
1 draw blocks --width 65536 --height 512 --wind 0.1 | 67108864
1 over-seeds --generations 1 --drawn discs --wind 0.95 | velocity
1 over-seeds later.toml --generations 1 | `cells`
1 long-run a.toml 10 4 no/kept | no/kept
1 resume a.toml table | printed cells
""".splitlines()
REFUSED += [f"2 {words} --colour | fhpgas-tools: " for words in COMMANDS]


def uneven():
    """Blocks of 8 x 9 cells of 30 x 20: the last column has 6 columns, the last row 2 rows."""
    fluid = np.array([[72, 36, 35, 54], [72, 72, 72, 54], [16, 16, 16, 12]])
    sums = fluid, *(np.full((3, 4), number) for number in (72, 36, -9))
    return fhpgas.Blocks(*sums, fhpgas.gas_named("fhp1"), (8, 9), Size(30, 20))


@pytest.fixture(scope="module", autouse=True)
def room(tmp_path_factory):
    """The current folder, with files."""
    room, late = tmp_path_factory.mktemp("room"), START.run(3)
    table, cells = late.blocks(11, 9).text(), late.text()
    files = {"a.toml": AREA, "table": table, "cut": table[:-3], "three": cells}
    files |= {"less": cells[: cells.rindex("\n", 0, -1) + 1], "broken.npz": "PK"}
    files |= {"cell.toml": 'gas = "hpp"\ncells = [".."]\n', "later.toml": late.scene()}
    for name, text in (files | {"empty.toml": AREA.replace("300", "0")}).items():
        (room / name).write_text(text)
    with pytest.MonkeyPatch.context() as patch:
        patch.chdir(room)
        yield room


def command(*words, text=""):
    """The status and the two outputs of a command, in this process."""
    words, out, err = " ".join(map(str, words)).split(), io.StringIO(), io.StringIO()
    given = mock.patch("sys.stdin", io.TextIOWrapper(io.BytesIO(text.encode())))
    with contextlib.redirect_stdout(out), contextlib.redirect_stderr(err), given:
        try:
            status = __main__.main(words) or 0
        except SystemExit as end:
            status = end.code
    return status, out.getvalue(), err.getvalue()


def printed(*words, **more):
    status, out, err = command(*words, **more)
    assert (status, err) == (0, ""), words
    return out


def test_a_picture_shows_the_numbers_in_their_places():
    """Less than half fluid is hidden."""
    blocks, ax = uneven(), Figure().add_subplot()
    image = blocks.plot("density", ax)
    hidden = [[False, False, True, False], [False] * 4, [False] * 4]
    assert image.get_array().mask.tolist() == hidden
    assert image.get_array()[:, :2].tolist() == [[1, 2], [1, 1], [4.5, 4.5]]
    assert (image.get_clim(), image.get_cmap().name) == ((1, 6), "viridis")
    assert image.colorbar.ax.get_ylabel() == "density\n(particles per cell)"
    left, right, bottom, top = image.get_extent()
    sides = 32, 27 * np.sqrt(3) / 2, 20 * np.sqrt(3) / 2
    assert np.allclose((right - left, top - bottom, top), sides)
    shown = *np.subtract(ax.get_xlim(), left), *ax.get_ylim()
    assert np.allclose(shown, (0, 30, 0, top))
    found = ax.get_aspect(), ax.get_xlabel(), image.get_cmap()(np.ma.masked)[:3]
    assert found == (1, "x (cells)", (0.55, 0.55, 0.55))


def test_a_picture_has_the_range_and_the_field_that_are_asked_for():
    blocks = uneven()
    image = blocks.plot("north", Figure().add_subplot(), colorbar=False)
    most = np.sqrt(3) / 16  # signed: py / particles = 1/8 of sqrt(3)/2
    assert np.allclose(image.get_clim(), (-most, most))
    image, smooth = blocks.plot("north", Figure().add_subplot(), smooth=1), blocks.smooth(1)
    shown = image.get_array()
    assert shown.compressed().tolist() == smooth.north[~shown.mask].tolist()
    given, looks = np.arange(12).reshape(3, 4), {"vmin": 3, "cmap": "magma"}
    image = blocks.plot(given, Figure().add_subplot(), **looks)
    assert image.get_clim() == (3, 11)
    for what, part in (
        ("heat", "no picture of 'heat'"),
        ("particles", "no picture"),
        (np.zeros(3), "[row, column]"),
        (np.array([["a"] * 4] * 3), "[row, column]"),
    ):
        fault(part, blocks.plot, what, Figure().add_subplot())


def test_arrows_stand_where_particles_are():
    """A pair on an even row, a particle on an odd one, half a cell to the east, one at rest, and a solid cell."""
    states, solid = np.zeros((2, 3), int), np.zeros((2, 3), bool)
    states[0, 1], states[1, 0], solid[1, 2] = 0b1001, 0b1000010, True
    ax = fhpgas.Lattice(states, solid, "fhp-rest").plot(ax=Figure().add_subplot())
    lines = matplotlib.collections.LineCollection
    cells, *arrows, rest = [each for each in ax.collections if not isinstance(each, lines)]
    drawn = [row for each in arrows for row in zip(each.get_offsets(), each.U, each.V)]
    found = {tuple(np.round((*place, u, v), 3).tolist()) for place, u, v in drawn}
    upper, lower = round(1.5 * np.sqrt(3) / 2, 3), round(0.5 * np.sqrt(3) / 2, 3)
    pair, slanted = {(1, upper, 0.46, 0), (1, upper, -0.46, 0)}, round(0.23 * np.sqrt(3), 3)
    assert found == pair | {(0.5, lower, 0.23, slanted)}
    assert np.allclose(rest.get_offsets(), [[0.5, lower]], atol=1e-3)
    is_grey = [colour[0] == 0.55 for colour in cells.get_facecolors()]
    assert is_grey == [False] * 5 + [True]
    highest = cells.get_paths()[0].vertices[:, 1].max()
    assert highest == pytest.approx(upper + 1 / np.sqrt(3), abs=1e-3)


def test_strips_and_films_have_one_range(room):
    disc = fhpgas.disc(fhpgas.Size(256, 96), 60, 48, 12)
    start = fhpgas.draw_gas(0.2, 0.3, solid=disc, chirality="left", seed=1)
    many, is_shown = [*start.every(20, 3)], start.blocks().fluid >= 36
    most = max(np.abs(lattice.blocks().vorticity[is_shown]).max() for lattice in many)
    figure = fhpgas.strip(many, "vorticity")
    titles = [ax.get_title() for ax in figure.axes[:4]]
    assert titles == [f"generation {20 * k}" for k in range(4)]
    for ax in figure.axes[:4]:
        assert np.allclose(ax.images[0].get_clim(), (-most, most))
        assert (np.ma.getmaskarray(ax.images[1].get_array()) != disc).all()
    is_on = [ax.axison for ax in fhpgas.strip(start.every(1, 2), columns=2).axes]
    assert is_on == [True] * 3 + [False, True]  # and the bar
    for suffix in ("gif", "webp", "apng"):
        path = room / f"film.{suffix}"
        fhpgas.film(path, (lattice for lattice in many), "vorticity", smooth=1, dpi=50)
        with Image.open(path) as film:
            images = ImageSequence.Iterator(film)
            frames = np.stack([np.asarray(frame.convert("RGB")) for frame in images])
        assert (len(frames), frames.shape[2]) == (4, 350)
        pairs = itertools.combinations(frames, 2)
        assert all((one != other).any() for one, other in pairs), suffix
        assert (frames[:, :, 310:] == frames[0, :, 310:]).all()  # the bar
    fhpgas.film(room / "few.gif", START.replace(states=START.states).every(1, 2))


def test_a_film_is_written_as_mp4(room, tool):
    tool("ffmpeg")
    fhpgas.film(room / "film.mp4", START.every(1, 2))
    assert (room / "film.mp4").read_bytes()[4:8] == b"ftyp"


def test_a_notebook_shows_pictures():
    large = fhpgas.draw_gas(0.2, size=fhpgas.Size(100, 50))
    for shown in (START, START.blocks(11, 3), large):
        assert shown._repr_png_()[:8] == b"\x89PNG\r\n\x1a\n"
        assert len(repr(shown)) < 100


@pytest.mark.parametrize("words", COMMANDS)
def test_every_command_has_help(words):
    assert "usage: " in printed(words, "--help")


@pytest.mark.parametrize("line", REFUSED)
def test_what_does_not_fit_is_refused(room, line):
    (room / "a.gif").unlink(missing_ok=True)
    words, part = line[2:].split(" | ")
    status, out, err = command(words)
    assert (status, out, err.count("\n"), part in err) == (int(line[0]), "", 1, True), err
    assert not (room / "a.gif").exists()


def test_the_parser_knows_the_names_of_the_package():
    told = {"fhpgas-tools": fhpgas.__version__} | fhpgas.build()
    assert printed("--version") == "".join(f"{name} {what}\n" for name, what in told.items())
    assert f"\n## {fhpgas.__version__}," in (needs.ROOT / "CHANGELOG.md").read_text()
    assert __main__.FIELDS_OF["choices"] == (*pictures.FIELDS, "particles")
    assert __main__.FILMS == pictures.PILLOW + pictures.FFMPEG


@pytest.mark.parametrize(
    "words, status, part",
    (
        ("explain -", 1, "scene: not TOML\n"),
        ("explain a.toml", 0, "not refused"),
        ("--version", 0, fhpgas.__version__),
    ),
)
def test_refused_scenes_are_explained_without_numpy(words, status, part):
    """`-S` leaves out the packages of the system."""
    words = [sys.executable, "-S", "-m", "fhpgas", *words.split()]
    given = {"input": "x = " + "9" * 10_000, "text": True}
    done = subprocess.run(words, capture_output=True, **given)
    found = done.returncode, part in done.stdout + done.stderr
    assert found == (status, True), done


def test_a_missing_package_is_named_as_this_python_installs_it(room):
    """Debian's packages serve the system's Python, which looks for none with `-S`."""
    venv.create(room / "own", symlinks=True)
    words = "-m fhpgas numbers --filling 0.2 --speed 0.1 --length 9".split()
    debian = ", or Debian's python3-numpy"
    for python, more in ([room / "own/bin/python"], ""), ([needs.SYSTEM, "-S"], debian):
        done = subprocess.run([*python, *words], capture_output=True, text=True)
        wanted = f"lacks the package numpy: pip install numpy{more}\n"
        assert (done.returncode, done.stderr[-len(wanted) :]) == (1, wanted), done
        assert done.stderr.count("\n") == 1


def test_an_output_that_takes_no_more_is_one_line(room):
    """It is closed, full at once or after a part, or takes ASCII only. So is memory, and the file of a film or a picture."""
    wide = "draw blocks --width 2048 --wind 0.1"
    (room / "letters.toml").write_text('gas = "\u00e9\u2603"\ncells = [".."]\n')
    for words, said in (
        ("draw blocks >&-", "fhpgas-tools: standard output is closed\n"),
        ("--help > /dev/full", "fhpgas-tools: standard output: No space left on device\n"),
        ("explain letters.toml >&2", '`gas` is "\\xe9\\u2603"'),
        (f"{wide} --height 100 > part", "fhpgas-tools: standard output: File too large\n"),
        (f"{wide} --height 16000 > /dev/null", "fhpgas-tools: memory refused: Unable to alloc"),
    ):
        limits = "ulimit -f 100 -v 400000; export OPENBLAS_NUM_THREADS=1"
        line = f"{limits}; {sys.executable} -m fhpgas {words}"
        known = os.environ | {"PYTHONIOENCODING": "ascii", "PYTHONUNBUFFERED": "1"}
        known = {"env": known, "capture_output": True, "text": True}
        done = subprocess.run(["bash", "-c", line], **known)
        found = done.returncode, said in done.stderr, "Traceback" in done.stderr
        assert found == (1, True, False), done
    full = OSError(28, "No space left")
    films = ["full.gif", *["full.mp4"] * bool(shutil.which("ffmpeg"))]
    cases = {name: f"film a.toml {name} --every 5 --until 5" for name in films}
    for name, words in (cases | {"full.png": "picture density full.png a.toml"}).items():
        with mock.patch("os.fsync", side_effect=full):
            found = command(words)
            assert found == (1, "", f"fhpgas-tools: {name}: No space left\n")
            assert not pathlib.Path(name).exists()


def test_drawn_scenes_are_as_asked():
    """The second reader counts the same cells as the program, and the scenes have what was asked for."""
    for words, solid in (
        ("blocks --width 20 --height 9 --block 3 2 4 5 --block 4 3 5 2", 24),
        ("blocks --width 12 --height 8 --closed --gas hpp", 8),
        ("discs --disc 10 8 1 --wind 0.3 -0.1", 7),
        ("nozzle --throat 24", 0),
        ("polygons --polygon 1.75 1.5 9.25 1.5 9.25 9.5 1.75 9.5", 60),
        ("blocks --width 4999 --height 2 --block 4998 0 1 2", 2),
        ("porous --share 1 --height 5 --wind 0.1", 320),
        ("blocks --filling 0.20005 --closed", 24),
    ):
        text = printed("draw", words)
        particles = second_reader.read(text.encode(), 10_000).particles()
        assert fhpgas.check(text)[3:] == (solid, particles), words
    drawn = printed("draw blocks --gas hpp --filling 0.03 --seed 9 --width 4999")
    wanted = 'version = 2\ngas = "hpp"\nchirality = "seeded"\nseed = 9\nwidth = 4999\n'
    assert drawn == wanted + "height = 24\nrate = 30\n"
    drawn = printed("draw blocks --width 65536 --height 65536 --filling 0")
    assert drawn.count("\n") == 7
    words = "--width 12 --height 8 --filling 0 --patch 2 3 4 2 0.6 --block 3 4 1 1"
    patch = fhpgas.Lattice.load(printed("draw blocks", words))
    assert 14 < patch.particles < 40 and not patch.states[:3].any()
    assert patch.solid.sum() == 1


def test_a_wind_draws_the_gas_of_the_package():
    assert "faster than sound, Mach 1.13\n" in command("draw blocks --filling 0.02 --wind 0.8")[2]
    words = "--disc 20 20 8 --filling 0.3 --wind 0.2 0.1 --seed 5 --gas hpp"
    drawn = fhpgas.Lattice.load(printed("draw discs --width 64 --height 47", words))
    solid = fhpgas.disc(fhpgas.Size(64, 47), 20, 20, 8, "hpp")
    assert drawn == fhpgas.draw_gas(0.3, 0.2, 0.1, solid=solid, gas="hpp", seed=5)


def test_commands_print_what_the_functions_return():
    assert printed("resume a.toml three") == START.run(3).scene()
    wanted = (
        f"{lattice.text().split(chr(10))[0]}\n{lattice.blocks(11, 9).text()}"
        for lattice in START.every(10, 2)
    )
    assert printed("over-time a.toml 20 10 --block 11 9") == "".join(wanted)
    points = [*START.driven(20, 10, flow=0.1)]
    found = map(float, printed("drive a.toml 20 10 --flow 0.1").split()[3:])
    wanted = [[p.before.generation, f"{p.velocity:.5f}", f"{p.force:.3g}"] for p in points]
    assert [*found] == np.array(wanted, float).ravel().tolist()
    wanted = (
        r"^([\d,.e-]+) MLUPS with 1 worker on 1 thread and 128 rows per belt\n"
        r"1000 generations of (?:1|594) cells: about [\d.e+-]+ (?:seconds|minutes|hours|days)\n$"
    )
    for name in "a.toml", "cell.toml":
        told = re.match(wanted, printed(f"how-long {name} 1000 --seconds 1"))
        assert float(told[1].replace(",", "")) > 0, name
    words = "--block 66 9 a.toml", "--block 64 24 --drawn discs --disc 9 9 3 --wind 0.2"
    lines = [printed("over-seeds --seeds 3 --generations 5", each) for each in words]
    disc = fhpgas.disc(fhpgas.Size(64, 24), 9, 9, 3)
    starts = (
        lambda seed: fhpgas.Lattice.load(fhpgas.with_seed(AREA, seed)),
        lambda seed: fhpgas.draw_gas(0.2, 0.2, solid=disc, seed=seed),
    )
    for line, start in zip(lines, starts):
        speeds = [start(seed).coarse(5, None, None).east[0, 0] for seed in (1, 2, 3)]
        mean, error = map(float, line.split("\n")[1].split()[5:7])
        assert mean == pytest.approx(np.mean(speeds), abs=1e-5)
        assert error / fhpgas.mean_and_error(speeds)[1] == pytest.approx(1, abs=0.1)


def test_a_long_run_goes_on_where_it_was_ended(room):
    assert printed("long-run a.toml 4 4 kept").count("\n") == 1
    wanted = f" particles {START.particles}\n".join(("generation 8", "generation 10", ""))
    assert printed("long-run a.toml 10 4 kept") == wanted
    assert fhpgas.Lattice.load(room / "kept") == START.run(10)
    for generations in 10, 4:
        told = printed(f"long-run a.toml {generations} 4 kept")
        assert told == "kept has generation 10, so there was nothing to run\n"


def test_the_last_table_over_time_is_of_the_last_generation():
    heads = re.findall(r"generation \d+", printed("over-time later.toml 7 2"))
    assert heads == ["generation 3", "generation 5", "generation 7"]


def test_a_command_that_gets_sigterm_says_so_by_its_status(room):
    """SIGTERM comes when the command has started its first program."""
    (room / "long.toml").write_text(AREA.replace("66", "4096"))
    words = "-m fhpgas over-seeds long.toml --seeds 4 --generations 1000000".split()
    with subprocess.Popen([sys.executable, *words], stdout=subprocess.PIPE) as process:
        tasks = pathlib.Path(f"/proc/{process.pid}/task")
        while not any(path.read_text() for path in tasks.glob("*/children")):
            assert process.poll() is None
            time.sleep(0.01)
        process.send_signal(signal.SIGTERM)
        assert (process.communicate()[0], process.returncode) == (b"", 143)


def test_a_flow_faster_than_sound_is_told():
    for speed, is_told in ((1, True), (0.708, True), (0.707, False)):
        status, out, err = command(f"numbers --filling 0.2 --speed {speed} --length 9")
        found = status, "mach" in out, "the flow is faster than sound" in err
        assert found == (0, True, is_told), err


def test_numbers_of_a_table_are_those_of_its_filling_and_speed():
    told = printed("numbers --filling 0.2 --speed 0.3 --length 40")
    # 0.3 sqrt(2), and (3/8) 0.3 40 / (1 / (12 0.2 0.8^3) - 1/8)
    assert re.search(r"mach +0\.4243\nreynolds +6\.533\n", told)
    head = "  col   row    fluid particles         px         py\n"
    table = head + " 0 0 50 100 80 0\n 1 0 50 20 -8 0\n"
    words = "numbers --table - --length 40 --gas fhp1 --size 20 5 --block 10 5"
    # 120 particles in 100 cells, 72 halves eastwards
    wanted = f"{'filling':16}{0.2:12}\n{'speed':16}{0.3:12}\n{told}"
    assert printed(words, text=table) == wanted
    wanted = f"filling{START.particles / 6 / START.fluid:21.4g}"
    for words in ("three --scene a.toml", "table --scene a.toml --block 11 9", "later.toml"):
        assert wanted in printed("numbers --length 9 --table", words)


def test_pictures_of_a_scene_of_its_cells_and_of_its_table_are_one(room):
    late = START.run(3)
    high = late.blocks(11, 9).density.max()
    late.save("late.npz"), late.blocks(11, 9).save("few.npz")
    for words in (
        "later.toml --block 11 9",
        "late.npz --block 11 9",
        "few.npz",
        "three --gas fhp1 --size 66 9 --block 11 9",
        "table --scene a.toml --block 11 9",
    ):
        told = printed("picture density a.png", words)
        assert re.search(f"^density from [.0-9]+ to {high:.4g}\n$", told)
    kinds = {"svg": b"<?xml", "pdf": b"%PDF", "webp": b"RIFF", "png": b"\x89PNG"}
    for kind, begins in kinds.items():
        printed(f"picture speed a.{kind} later.toml a.toml")
        assert (room / f"a.{kind}").read_bytes().startswith(begins)
    assert printed("picture particles a.svg three --scene a.toml") == ""


@pytest.mark.parametrize("more", ("", "--flow 0.1"))
def test_a_film_computes_each_generation_once(more):
    run = fhpgas.Lattice.run
    with mock.patch.object(fhpgas.Lattice, "run", autospec=True) as call:
        call.side_effect, looks = run, "--what density --block 11 9"
        told = printed("film a.toml a.gif --every 5 --until 40", looks, more)
    assert told == "a.gif: 9 frames, generations 0 to 40\n"
    assert sum(each.args[1] for each in call.call_args_list) == 40

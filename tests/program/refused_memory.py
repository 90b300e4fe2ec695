"""Refuses requests for memory, starts of threads among them, of the built program and of the calls
that take memory, which the program `probes` makes: every request in turn, only that one or also all
later ones. A refused run must end with its status and line, with every thread joined and all memory
freed, and print nothing. Otherwise it must end with 0, without a request between the last start of a
thread and the first join, and with as many threads started as its plan has. Then the program runs
under limits of its address space.

The program collects its words, and then their texts, by the kit's `collect`, which asks for room for
all of them and, if that is refused, again for less. Two requests of a run may therefore be refused by
themselves and the run continue. It must then print the whole usual answer."""

import itertools
import os
import re
import resource
import subprocess
import tempfile

import needs
import pytest
from fhpgas import gas_table

CALLS = re.findall(r"^(\w+) Answered$", (needs.ROOT / "crates/probes/stdout").read_text(), re.M)
BLOCKS = "--generations 2 --block-width 8 --block-height 8"
REQUESTS = [
    ("drift", "run --generations 1"),
    ("obstacle", "run --generations 2 --stages 1 --capacity 1"),
    ("drift", "run --generations 3 --stages 2 --capacity 1"),
    ("drift", "run --generations 5 --stages 4"),
    ("drift", "run --generations 5 --stages 4 --threads 1"),
    ("drift", "run --generations 5 --stages 4 --threads 3"),
    ("drift", "run --generations 5 --stages 3 --threads 3"),
    ("drift", "run --generations 5 --threads 2"),
    ("channel", "run --generations 1"),
    ("rest", "run --generations 4 --stages 2"),
    ("later", "run --generations 3 --stages 2"),
    ("wind", f"coarse {BLOCKS}"),
    ("drift", "replay --generations 2 --stages 2 0 1 2 0 1 2"),
    ("square", "check"),
    ("drift", "run --help"),
]
# Of runs whose memory is compared: a gas, its sizes, workers, places and threads.
PLANS = [
    ("hpp", 1000, 300, 1, 1, 1),
    ("fhp1", 4096, 512, 4, 2, 4),
    ("fhp1", 4096, 512, 4, 2, 3),
    ("fhp-rest", 65, 2000, 8, 128, 8),
    ("fhp-rest", 65, 2000, 8, 128, 1),
    ("fhp1", 65536, 8, 3, 16, 3),
    ("hpp", 1, 6000, 64, 1024, 64),
    ("hpp", 1, 6000, 64, 1024, 5),
]
REST = 100_000  # bytes for the scene's text, the words and what is printed
FORMULA = "The belts take `(T + 1) x C x width x D / 8` bytes, and three rows more each, and each stage takes at most four rows."


class Ended:
    """How a program ended under the library that refuses."""

    def __init__(self, library, words, scene, refuse):
        with tempfile.NamedTemporaryFile() as seen:
            environment = {**os.environ, **refuse, "REFUSE_SEEN": seen.name, "LD_PRELOAD": library}
            known = {"capture_output": True, "env": environment, "timeout": needs.PATIENCE}
            with open(scene, "rb") as text:
                ran = subprocess.run(words, stdin=text, **known)
            numbers = seen.read().split()
        self.status, self.out, self.err = ran.returncode, ran.stdout, ran.stderr
        names = "seen refused started joined held since_start asked largest most_held".split()
        vars(self).update(zip(names, map(int, numbers or [-1] * 9)))

    def is_tidy(self):
        return self.started == self.joined and self.held == 0

    def is_refused(self, line):
        return self.status == 3 and self.is_tidy() and self.out == b"" and self.err == line

    def __repr__(self):
        return (
            f"status {self.status}, {self.refused} of {self.seen} requests refused, {self.joined} of {self.started} threads"
            f" joined, {self.held} bytes kept, {len(self.out)} bytes out: {self.err[:200]!r}"
        )


def threads_of(words):
    """The threads that a request starts beside the program's own, which has the first worker if there are fewer threads than stages. None
    if the words do not say how many stages there are."""
    numbers = dict(re.findall(r"--(stages|threads) (\d+)", words))
    if "stages" not in numbers:
        return None
    stages, threads = int(numbers["stages"]), int(numbers.get("threads", numbers["stages"]))
    return threads - 1 if threads < stages else threads


@pytest.fixture(scope="module")
def refuse(compiled):
    """Runs a program under the library that refuses."""
    library = compiled("refusal/refuse.c", "-shared", "-fPIC", "-O1", "-ldl")
    return lambda words, scene, **refuse: Ended(str(library), words, scene, refuse)


@pytest.fixture(scope="module")
def probes():
    return needs.built_program("probes")


def stated(gas, width, height, stages, capacity, threads):
    """The bytes of two lattices, and those of belts and workers, by the formula of docs/PERFORMANCE.md."""
    directions = len(gas_table.GASES[gas].momenta)
    plane = -(-width // 64) * 8
    row = directions * plane + 256
    lattices = 2 * height * (plane + row)
    belts = (threads + 1) * (capacity * directions * plane + 3 * row) + stages * 4 * row
    return lattices, belts


def scene_of(name):
    return needs.ROOT / f"scenes/{name}.toml"


def sweep(refuse, words, scene, line, most_asked_again=0):
    """Refuses every request in turn, only that one or also all later ones. After at most so many refusals the run may continue, to the
    usual end."""
    usual = refuse(words, scene)
    assert usual.status == 0 and usual.is_tidy() and usual.seen > 0, usual
    wanted = 0 if "replay" in words else threads_of(" ".join(map(str, words)))
    assert wanted in (None, usual.started), "threads"
    # requests between last start and first join
    assert usual.since_start == (0 if usual.started else usual.seen)
    asked_again = 0
    for way, request in itertools.product(("REFUSE_AT", "REFUSE_FROM"), range(1, usual.seen + 1)):
        ended = refuse(words, scene, **{way: str(request)})
        is_usual = ended.status == 0 and ended.is_tidy() and ended.out == usual.out
        goes_on = is_usual and way == "REFUSE_AT"
        asked_again += goes_on
        assert ended.refused > 0 and (
            ended.is_refused(line) or goes_on
        ), f"{way} {request}: {ended}"
    assert asked_again <= most_asked_again


@pytest.mark.parametrize("call", CALLS)
def test_call(refuse, probes, call):
    sweep(refuse, [probes, call], os.devnull, b"")


@pytest.mark.parametrize("scene, words", REQUESTS)
def test_run(refuse, program, scene, words):
    line = b"memory refused\n"
    sweep(refuse, [program, *words.split()], scene_of(scene), line, most_asked_again=2)


@pytest.mark.parametrize("stages", [1, 2, 5])
def test_places(refuse, program, stages):
    """Belts with 512 places more ask for the memory of 512 rows more."""
    words = [program, *f"run --generations 3 --stages {stages} --capacity".split()]
    few, many = (refuse([*words, places], scene_of("drift")) for places in ("512", "1024"))
    least = 512 * (stages + 1) * 6 * 8  # a row of four cells: a word for each direction
    assert least <= many.asked - few.asked < 2 * least


def test_formula_is_stated():
    """The page on memory states what is computed here."""
    assert FORMULA in " ".join((needs.ROOT / "docs/PERFORMANCE.md").read_text().split())


@pytest.mark.parametrize("plan", PLANS)
def test_memory_of_a_run(refuse, program, tmp_path, plan):
    """A run never holds more than the page on memory states for its size and plan, nor asks for more at once than for a lattice or for
    the belts. The scene's text, the words and what is printed take the rest."""
    gas, width, height, stages, capacity, threads = plan
    area = f'version = 2\ngas = "{gas}"\nwidth = {width}\nheight = {height}\nrate = 300\n'
    (tmp_path / "area").write_text(area)
    words = f"run --generations {2 * stages} --stages {stages} --capacity {capacity} --threads {threads}"
    lattices, belts = stated(*plan)
    ended = refuse([program, *words.split()], tmp_path / "area")
    assert ended.status == 0, ended
    assert ended.largest <= max(lattices // 2, belts) + REST
    assert ended.most_held <= lattices + belts + REST


def test_as_many_requests(refuse, program, probes):
    """Runs of one line make the same number of requests for more and for fewer generations."""
    words = [program, "run", "--stages", "2", "--generations"]
    assert len({refuse([*words, it], scene_of("drift")).seen for it in ("5", "50", "5000")}) == 1
    calls = "run_2", "run_2_long"
    assert len({refuse([probes, call], os.devnull).seen for call in calls}) == 1


def within(limit, program):
    """Runs the program on a large area in an address space of a number of bytes."""
    text = b'gas = "fhp1"\nwidth = 4096\nheight = 4096\nparticles = [[0, 0, 1], [4095, 4095, 5]]\n'
    words = "coarse --generations 1 --stages 2 --block-width 4096 --block-height 4096".split()
    limited = lambda: resource.setrlimit(resource.RLIMIT_AS, (limit, limit))
    known = {"input": text, "capture_output": True, "timeout": needs.PATIENCE}
    ended = subprocess.run([program, *words], preexec_fn=limited, **known)
    return ended.returncode, ended.stdout, ended.stderr


@pytest.fixture(scope="module")
def usual(program):
    return within(resource.RLIM_INFINITY, program)


SIZES = 8, 12, 16, 20, 24, 28, 32, 40, 48, 56, 64, 80, 96, 128, 192, 256


@pytest.mark.parametrize("mebibytes", SIZES)
def test_address_space(program, usual, mebibytes):
    """A large area in address spaces from too small to large enough."""
    assert usual[0] == 0
    assert within(mebibytes << 20, program) in (usual, (3, b"", b"memory refused\n"))

"""Runs the program with standard error on a terminal: while generations are computed a line there
shows how many, and is wiped before the program ends. Standard output has the same bytes as without a
terminal, when standard error stays empty. A run that was not told its threads says after a while,
once, how to choose them, one that was told or has one processor never. Then with standard input on a
terminal, when it says that it awaits a scene."""

import concurrent.futures
import contextlib
import os
import pathlib
import pty
import re
import subprocess
import tempfile

import pytest

pytestmark = pytest.mark.alone
SCENE = b'gas = "fhp1"\nwidth = 512\nheight = 512\nrate = 300\n'
GENERATIONS = 5001  # which take long enough on any machine that a line is due
BLOCKS = f"coarse --generations {GENERATIONS} --block-width 512 --block-height 512"
WIPE = "\r\x1b[K"
LINE = re.compile(re.escape(WIPE) + r"(\d+) of (\d+) generations \((\d+) %\)")
HINT = f"{WIPE}fhpgas: --threads T prints the same bytes with T threads (docs/PERFORMANCE.md)\r\n"
LONG_RUN = "run", "--generations", "1000000"  # is ended when it has shown enough


def watched(is_enough, *command):
    """The status, what came on standard output, and what the terminal showed when that was enough, or the run was over."""
    ours, theirs = pty.openpty()
    with tempfile.TemporaryFile() as out:
        process = subprocess.Popen(command, stdin=subprocess.PIPE, stdout=out, stderr=theirs)
        os.close(theirs)
        process.stdin.write(SCENE)
        process.stdin.close()
        told = ""
        with contextlib.suppress(OSError):
            while not is_enough(told):
                told += os.read(ours, 65536).decode()
        process.kill()
        status = process.wait()
        os.close(ours)
        out.seek(0)
        return status, out.read(), told


def tells(told):
    """Whether the terminal showed growing numbers of generations with their shares, and the line was wiped in the end."""
    lines = [tuple(map(int, found.groups())) for found in LINE.finditer(told)]
    right = all(
        total == GENERATIONS and part < total and share == part * 100 // total
        for part, total, share in lines
    )
    rest = LINE.sub("", told).replace(HINT, "", 1)  # which a slow machine says too
    return lines != [] and lines == sorted(lines) and right and rest == WIPE


@pytest.mark.parametrize(
    "words", [f"run --generations {GENERATIONS}", BLOCKS, "check", "run --generations 0"]
)
def test_progress(program, words):
    plain = subprocess.run([program, *words.split()], input=SCENE, capture_output=True)
    assert plain.returncode == 0 and not plain.stderr
    status, answer, told = watched(lambda told: False, program, *words.split())
    assert (status, answer) == (0, plain.stdout)
    assert tells(told) if str(GENERATIONS) in words else told == ""


def test_scene_that_is_typed(program):
    ours, theirs = pty.openpty()
    pipes = dict(stdin=theirs, stdout=subprocess.PIPE, stderr=subprocess.PIPE)
    process = subprocess.Popen([program, "check"], **pipes)
    os.close(theirs)
    os.write(ours, SCENE.replace(b"rate = 300", b"rate = 0") + b"\x04")
    answer, told = process.communicate()
    os.close(ours)
    assert told == b"fhpgas: type a scene, and end it by Ctrl-D on a line of its own\n"
    assert answer == b"gas fhp1 width 512 height 512 solid 0 particles 0\n"
    assert process.returncode == 0


def shown_until(is_enough, *command):
    """What the terminal of a long run showed, up to the last line, which may be half."""
    return watched(is_enough, *command)[2].rpartition(WIPE)[0]


def lines_after(said, *command):
    """What a run shows until it has as many lines of progress as the run that said the hint."""
    lines = lambda told: len(LINE.findall(told))
    return shown_until(lambda told: said.done() and lines(told) > lines(said.result()), *command)


def can_choose():
    """Whether there are processors to choose from. A container may have less time than processors."""
    quota = pathlib.Path("/sys/fs/cgroup/cpu.max")
    limit, period = (quota.read_text() if quota.exists() else "max 1").split()
    return len(os.sched_getaffinity(0)) > 1 and (limit == "max" or int(limit) >= 2 * int(period))


@pytest.mark.may_be_left_out
@pytest.mark.skipif(not can_choose(), reason="one processor leaves nothing to choose")
def test_hint(program):
    """It is said once, and neither with --threads nor on one processor. All runs go at once, because a hint takes some seconds."""
    run, one = (program, *LONG_RUN), str(min(os.sched_getaffinity(0)))
    is_enough = lambda told: len(LINE.findall(told.partition(HINT)[2])) > 3
    with concurrent.futures.ThreadPoolExecutor() as pool:
        said = pool.submit(shown_until, is_enough, *run)
        told = pool.submit(lines_after, said, *run, "--threads", "2")
        alone = pool.submit(lines_after, said, "taskset", "--cpu-list", one, *run)
    assert LINE.sub("", said.result()) == HINT
    for silent in told.result(), alone.result():
        assert LINE.sub("", silent) == "" != silent

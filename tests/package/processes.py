"""Tests how the program is found and ended, runs side by side, and the examples of docstrings."""

import concurrent.futures
import doctest
import inspect
import io
import itertools
import os
import re
import shutil
import signal
import subprocess
import sys
import threading
import time
from unittest import mock

import needs
import pytest
from package_case import PROGRAM, wind

needs.libraries("distributed", "tqdm")
import distributed
import fhpgas
import numpy as np
from fhpgas import Size

SIGNALS = signal.SIGINT, signal.SIGTERM, signal.SIGHUP, signal.SIGKILL
ROUNDS = 6  # of runs that fail, are killed and are interrupted


def particles_of(seed):
    """At the top of a module, as executors need it."""
    return fhpgas.draw_gas(0.3, size=Size(66, 9), seed=seed).run(2).particles


def long_run(number):
    """By the engine, or by the program if the number is odd."""
    start = fhpgas.draw_gas(0.2, size=Size(4096, 64), seed=number)
    late = fhpgas.run(start.scene(), 10**6, stages=2) if number % 2 else start.run(10**6)
    return late.particles


def is_function(value):
    return inspect.isfunction(value) or inspect.ismethod(value)


def programs_of(of, number):
    """The processes of the program of a session, `-s`, or a parent, `-P`, which have not ended.
    A session that was begun outside of a container has no number in it."""
    words = ["pgrep", "-x", "-r", "D,R,S,T,t", of, str(number), "fhpgas"]
    return {*subprocess.run(words, capture_output=True, text=True).stdout.split()}


def test_the_program_is_found(tmp_path):
    """In a folder as an archive unpacks, with a program next to the package, by FHPGAS, and on the PATH."""
    script = (
        "import fhpgas; print(fhpgas.run('gas = \"hpp\"\\ncells = [\"01..\"]', 1).text(), end='')"
    )
    words, no_caches = [sys.executable, "-c", script], shutil.ignore_patterns("__pycache__")
    shutil.copytree(needs.ROOT / "python", tmp_path / "python", ignore=no_caches)
    shutil.copy(PROGRAM, tmp_path / "fhpgas")

    def ran(**more):
        environment = {"PYTHONPATH": f"{tmp_path}/python", "PATH": "/nowhere"} | more
        done = subprocess.run(words, capture_output=True, text=True, env=environment, cwd="/")
        return done.stdout or done.stderr

    assert ran() == "generation 1 particles 1\n..01\n"
    others = {"/no/such": "is missing", "/tmp": "is no file", "/bin/false": "does not start"}
    for other, part in (others | {"/bin/ls": "or is another program"}).items():
        assert re.search(f"{other} .*{part}", ran(FHPGAS=other))
    (tmp_path / "bin").mkdir()
    (tmp_path / "fhpgas").rename(tmp_path / "bin/fhpgas")
    assert "the program fhpgas is not found" in ran()
    for more in {"PATH": f"{tmp_path}/bin"}, {"FHPGAS": f"{tmp_path}/bin/fhpgas"}:
        assert ran(**more) == "generation 1 particles 1\n..01\n", more
    others = "{'numpy', 'matplotlib', 'scipy', 'PIL', 'distributed'}"
    words[2] = f"import fhpgas, sys; print({others} & {{*sys.modules}})"
    assert ran() == "{'numpy'}\n"
    words[2] = "import fhpgas; print(fhpgas.tiles.Tiles.__module__, hasattr(fhpgas, 'tile'))"
    assert ran() == "fhpgas.tiles False\n"


def test_a_plan_is_chosen_from_the_cores_of_the_process():
    plans = "1024 1000 1: 63 1, 1024 1000 4: 63 4, 1024 1000 8: 63 8, 1024 1000 64: 64 64"
    plans += ", 1024 16 4: 16 4, 1024 40 4: 40 4, 1024 65 4: 33 4, 1024 100 4: 50 4"
    plans += ", 256 100 4: 15 4, 24 100 4: 1 1, 9 1 4: 1 1, 1024 3 4: 3 3, 1024 0 4: 1 1"
    for known, _, plan in (text.partition(": ") for text in plans.split(", ")):
        stages, threads = map(int, plan.split())
        assert fhpgas.plan(*map(int, known.split())) == (stages, 128, threads), known
    assert fhpgas.plan(24, 100, 4, stages=6) == (6, 128, 4)
    with mock.patch.object(os, "sched_getaffinity", lambda process: {5, 6}):
        assert fhpgas.plan(1024, 1000) == (63, 128, 2)


def test_bars_count_the_parts_that_are_asked_for(tmp_path):
    """And nothing else is written, also on a terminal."""
    start = wind((64, 47))
    for progress in ({}, {"progress": True}):
        with mock.patch.object(sys, "stderr", io.StringIO()) as terminal:
            terminal.isatty = lambda: True
            kept = tmp_path / str(progress)
            parts = start.every(1, 3, **progress), start.driven(6, 2, force=0.001, **progress)
            parts = *parts, start.long_run(5, 1, kept, **progress)
            assert [len([*part]) for part in parts] == [4, 4, 5]
            fhpgas.side_by_side(start.run, range(6), **progress)
            start.run(10, **progress), fhpgas.run(start.scene(), 10)
        counts = ((3, "part"), (4, "point"), (5, "part"), (6, "run"), (1, "part"))
        found = [f"0/{n} [00:00<?, ?{unit}/s]" in terminal.getvalue() for n, unit in counts]
        assert found == [bool(progress)] * 5
        assert bool(terminal.getvalue()) == bool(progress)


def test_runs_go_side_by_side_in_order():
    """In threads without a fork, by executors, and on a Dask cluster."""
    alone = [particles_of(seed) for seed in range(5)]
    with mock.patch("os.fork", side_effect=AssertionError):
        assert fhpgas.side_by_side(lambda seed: particles_of(seed), range(5)) == alone
    inner = fhpgas.side_by_side(lambda _: fhpgas.side_by_side(particles_of, range(5)), range(3))
    assert inner == [alone] * 3
    for pool in concurrent.futures.ThreadPoolExecutor, concurrent.futures.ProcessPoolExecutor:
        with pool(2) as executor:
            assert fhpgas.side_by_side(particles_of, range(5), executor) == alone
    known = dict(n_workers=2, threads_per_worker=1, dashboard_address=":0")
    with distributed.Client(**known) as client, client.get_executor() as executor:
        assert fhpgas.side_by_side(particles_of, range(5), executor) == alone


def test_a_member_that_fails_or_is_killed_and_an_interrupt_end_all_runs():
    """What was raised arrives as itself, and no program goes on."""

    class Own(Exception):
        """It cannot be pickled."""

    own = Own(lambda: None)

    def failing(number):
        if number == 2:
            raise own
        return long_run(number)

    def killed(number):
        if number == 2:
            while not (found := programs_of("-P", os.getpid())):
                particles_of(number)  # which ends this member too if another has failed
            subprocess.run(["kill", "-KILL", *found], stderr=subprocess.DEVNULL)
        return long_run(number)

    def interrupted(number):
        if number == 2:
            signal.pthread_kill(threading.main_thread().ident, signal.SIGINT)
        return fhpgas.side_by_side(long_run, [number] * 2)

    four = mock.patch.object(os, "sched_getaffinity", lambda process: {*range(4)})
    cases = (failing, Own), (killed, fhpgas.Fault), (interrupted, KeyboardInterrupt)
    for _, (function, raised) in itertools.product(range(ROUNDS), cases):
        with pytest.raises(raised) as found, four:
            fhpgas.side_by_side(function, range(6))
        assert raised is not Own or found.value is own
        assert programs_of("-P", os.getpid()) == set()


@pytest.mark.parametrize("is_stopped", (False, True))
@pytest.mark.parametrize("call", ("long(0)", "fhpgas.side_by_side(long, range(2))"))
@pytest.mark.parametrize("number", SIGNALS)
def test_a_signal_to_the_parent_ends_the_programs_too(number, call, is_stopped):
    """Of a process that is signalled alone, as a notebook's is, also while it is stopped, as by
    `kill %1` after Ctrl-Z. An interrupt raises a KeyboardInterrupt there."""
    script = (  # in the background SIGINT is ignored, and by nohup SIGHUP
        "import fhpgas, signal\nsignal.signal(signal.SIGINT, signal.default_int_handler)\n"
        "signal.signal(signal.SIGHUP, signal.SIG_DFL)\nsize = fhpgas.Size(4096, 64)\n"
        "start = lambda seed: fhpgas.draw_gas(0.2, size=size, seed=seed).scene()\n"
        "long = lambda seed: fhpgas.run(start(seed), 10**6, 16)\n"
    )
    words = [sys.executable, "-c", script + call]
    known = dict(stderr=subprocess.PIPE, text=True, start_new_session=True)
    with subprocess.Popen(words, **known) as process:
        while not (runs := programs_of("-s", process.pid)):
            assert process.poll() is None
            time.sleep(0.01)
        if is_stopped:
            process.send_signal(signal.SIGSTOP)
            os.waitid(os.P_PID, process.pid, os.WSTOPPED | os.WNOWAIT)
        process.send_signal(number)
        process.send_signal(signal.SIGCONT)
        said = process.communicate()[1]
        assert ("KeyboardInterrupt" in said) == (number == signal.SIGINT)
    while runs & programs_of("-s", process.pid):
        time.sleep(0.01)


def test_examples_run_and_public_calls_have_their_sections(tmp_path, monkeypatch):
    monkeypatch.chdir(tmp_path)
    tried, modules = 0, {name for name in sys.modules if name.startswith("fhpgas.")}
    for name in sorted(modules):
        done = doctest.testmod(sys.modules[name], extraglobs={"fhpgas": fhpgas, "np": np})
        assert done.failed == 0, name
        tried += done.attempted
    assert tried > 90
    calls = {name: getattr(fhpgas, name) for name in fhpgas.__all__}
    for kind in (fhpgas.Lattice, fhpgas.Blocks):
        known = {name: getattr(kind, name) for name in vars(kind) if name[0] != "_"}
        calls |= {name: call for name, call in known.items() if is_function(call)}
    for name, call in calls.items():
        if is_function(call) and {*inspect.signature(call).parameters} - {"self"}:
            for section in ("Parameters", "Examples"):
                assert f"\n{section}\n" in inspect.getdoc(call), name

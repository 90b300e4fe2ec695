"""The program that runs scenes: where it is found, and calls of it. It needs the standard library
only."""
import contextlib
import ctypes
import functools
import importlib
import os
import pathlib
import platform
import shutil
import subprocess
import sys
import threading
from collections.abc import Iterator
from typing import Any

from .fault import Fault
from .groups import group
from .limits import MOST_BYTES

OWN = pathlib.Path(__file__).resolve().with_name("fhpgas")  # in a wheel
ABOVE = OWN.parents[2]  # the repository, or the unpacked archive
LAUNCHER = ABOVE / "tools/program"  # of a repository
COMMAND = b"from fhpgas.program import"  # in the script that pip makes of `main`
SYSTEM = f"{platform.system()} on {platform.machine()}"
GET = "take a wheel for Linux on x86-64, or in a clone `make plain` and then `pip install .`"
TIED = "setpriv", "--pdeathsig", "KILL"  # of util-linux
_starting = threading.Lock()  # for the first call of a program, which may build it


@functools.cache
def program_path() -> pathlib.Path:
    """The path of the program: the one that the environment variable FHPGAS names, the package's
    own, the one in the repository or archive which contains this package, or the first on the PATH.
    The launcher of a repository builds it first."""
    found = os.environ.get("FHPGAS") or next(_programs(), None)
    if not found:
        why = f"this package has none for {SYSTEM}, nor do FHPGAS or the PATH name one: {GET}"
        if next(OWN.parent.glob("libfhpgas-*"), None):
            here = " ".join(platform.libc_ver())
            why = f"this package has the engine alone, for C libraries before the program's: {here}"
        raise Fault(f"the program fhpgas is not found, which reads scenes: {why}")
    path = pathlib.Path(found).absolute()
    if not path.is_file():
        raise Fault(f"{path} is {'no file' if path.exists() else 'missing'}")
    if "fhpgas" not in _version(path):
        raise Fault(f"{path} does not start, or is another program")
    return path


def _programs() -> Iterator[str]:
    """Where the program may be, the best first. The PATH has perhaps the script of `main`."""
    if OWN.is_file():
        yield str(OWN)
    elif LAUNCHER.is_file():
        done = subprocess.run([LAUNCHER], stdout=subprocess.PIPE, stdin=subprocess.DEVNULL)
        if done.returncode:
            raise Fault(f"{LAUNCHER} found no program, and built none: the lines above say why")
        yield os.fsdecode(done.stdout.rstrip(b"\n"))
    elif (ABOVE / "fhpgas").is_file():
        yield str(ABOVE / "fhpgas")
    for folder in os.get_exec_path():
        found = shutil.which("fhpgas", path=folder)
        if found and COMMAND not in pathlib.Path(found).read_bytes()[:1000]:
            yield found


@functools.cache
def _version(path: pathlib.Path) -> str:
    """What a program says that it is, nothing if it fails."""
    try:
        done = subprocess.run([path, "--version"], stdout=subprocess.PIPE, stdin=subprocess.DEVNULL)
    except OSError as fault:
        raise Fault(f"{path}: {fault.strerror}") from None
    return "" if done.returncode else done.stdout.decode(errors="replace")


def build() -> dict[str, str]:
    """What the engine and the program are, and of which commit, if the build knows it.

    Returns
    -------
    dict of str
        By `engine` and `program`. The text ends with "not proved" if plain Rust built it. What the
        kit built has its checksums in the file RECORD of an archive, not in the one of pip's.

    Examples
    --------
    >>> sorted(fhpgas.build())
    ['engine', 'program']
    """
    proved = "made by the kit, compare with RECORD of an archive"
    engine, program = "none, or no numpy to call it", "none"
    with contextlib.suppress(ModuleNotFoundError):
        if found := importlib.import_module("fhpgas.engine").library():
            says: Any = getattr(found, "fhpgas_not_proved", lambda: proved.encode())
            says.restype = ctypes.c_char_p
            engine = says().decode()
    with contextlib.suppress(Fault):
        told = _version(program_path()).partition("(")[2].rstrip(")\n")
        program = told if told.endswith("not proved") else proved
    return {"engine": engine, "program": program}


def main() -> None:
    """The command `fhpgas` of an installed package."""
    try:
        path = str(program_path())
    except Fault as fault:
        print(f"fhpgas: {fault}", file=sys.stderr)
        sys.exit(70)
    os.execv(path, [path, *sys.argv[1:]])


@functools.cache
def _tied() -> tuple[str, ...]:
    """The words before a program by which the kernel kills it when the thread that started it
    ends, which waits for it, or this process is killed. Without setpriv there are none."""
    with contextlib.suppress(OSError):
        if not subprocess.run([*TIED, "true"], stderr=subprocess.DEVNULL).returncode:
            return TIED
    return ()


def call(scene: bytes, *words: object) -> bytes:
    """What the program prints for the bytes of a scene. The line of a refusal is raised as a
    Fault."""
    if len(scene) > MOST_BYTES:
        way = "an area describes a large lattice in few lines"
        raise Fault(f"the scene has {len(scene)} bytes, and the program reads {MOST_BYTES}: {way}")
    with _starting:
        command = [*_tied(), str(program_path()), *map(str, words)]
    pipes: dict[str, Any] = dict.fromkeys(("stdin", "stdout", "stderr"), subprocess.PIPE)
    answer, unsent = None, scene
    with group.get().holding(lambda: subprocess.Popen(command, **pipes)) as process, process:
        try:
            while answer is None:  # each second it sees an interrupt that came to another thread
                with contextlib.suppress(subprocess.TimeoutExpired):
                    answer, said = process.communicate(unsent, timeout=1)
                unsent = b""  # Popen keeps what it has not sent
        except BaseException:
            process.kill()
            raise
    if process.returncode:
        group.get().go_on()
        line = said.decode(errors="replace").split("\n")[0]
        line = line or f"fhpgas ended with status {process.returncode}"
        raise Fault(line + " (`explain` says where)" * line.startswith("scene: "))
    return bytes(answer)

"""Files that are read whole, and written whole or not at all."""
import contextlib
import os
import pathlib
import shutil
import sys
from collections.abc import Iterator
from typing import TypeAlias

from .fault import Fault

try:
    import fcntl
except ImportError:  # on Windows
    fcntl = None  # type: ignore[assignment]


Path: TypeAlias = str | os.PathLike[str]


@contextlib.contextmanager
def of_file(path: Path) -> Iterator[None]:
    """Lets an error of the system in the block be a Fault that begins with the path."""
    try:
        yield
    except OSError as fault:
        raise Fault(f"{path}: {fault.strerror or fault}") from None


def read_bytes(path: Path) -> bytes:
    """The bytes of a file, or of standard input for "-". An unreadable file raises a Fault."""
    with of_file(path):
        return sys.stdin.buffer.read() if str(path) == "-" else pathlib.Path(path).read_bytes()


def is_npz(data: bytes) -> bool:
    """Whether these are the bytes of a .npz file, a zip archive."""
    return data.startswith(b"PK")


def plain_file(path: Path) -> pathlib.Path:
    """Where a file is written, behind symbolic links. What is there and no plain file raises a
    Fault."""
    real = pathlib.Path(os.path.realpath(path))
    if os.path.lexists(real) and not real.is_file():
        raise Fault(f"{path} is no plain file")
    return real


def write_whole(path: Path, data: bytes) -> None:
    """Writes a file, which is whole or as before, also after a loss of power: what takes its name
    is finished and on the disk. Until then it has one name beside the file, so that killed runs
    leave one such file at most."""
    real = plain_file(path)
    part = real.with_name(f".{real.name}.new")
    with of_file(path), _alone(real.parent):
        try:
            with part.open("wb") as file:
                file.write(data)
                file.flush()
                os.fsync(file.fileno())
            if real.exists():
                shutil.copymode(real, part)
            os.replace(part, real)
        except BaseException:
            part.unlink(missing_ok=True)
            raise


@contextlib.contextmanager
def _alone(folder: pathlib.Path) -> Iterator[None]:
    """Lets no other thread or process write a file of this folder in such a block, where the system
    of its disk has locks."""
    with contextlib.ExitStack() as ends:
        if fcntl:
            number = os.open(folder, os.O_RDONLY)
            ends.callback(os.close, number)
            with contextlib.suppress(OSError):
                fcntl.flock(number, fcntl.LOCK_EX)
        yield

"""Command lines by argparse, whose faults are one line."""
import argparse
import contextlib
import functools
import io
import os
import pathlib
import signal
import sys
from collections.abc import Callable, Iterator
from typing import Any, NoReturn

from .fault import Fault, Usage


class Parser(argparse.ArgumentParser):
    """A reader of words whose refusals are Faults. It shows a module's docstring unchanged."""

    def __init__(self, *words: Any, **options: Any):
        options.setdefault("formatter_class", argparse.RawDescriptionHelpFormatter)
        super().__init__(*words, **options)

    def error(self, message: str) -> NoReturn:
        raise Usage(f"{message} (--help says more)")


@contextlib.contextmanager
def one_line_faults(name: str) -> Iterator[None]:
    """Ends a script after one line for a Fault: with 2 if the words are wrong, else with 1. It ends
    silently if the reader of its output has left, and with 130 after an interrupt. SIGTERM and
    SIGHUP end it as an interrupt does, with 143 and 129. What the output cannot encode is
    escaped."""
    for number in {signal.SIGTERM, getattr(signal, "SIGHUP", signal.SIGTERM)}:
        if signal.getsignal(number) is signal.SIG_DFL:  # nohup lets SIGHUP be ignored
            signal.signal(number, lambda number, _: sys.exit(128 + number))
    try:
        if sys.stdout is None:
            raise Fault("standard output is closed")
        if isinstance(sys.stdout, io.TextIOWrapper):
            sys.stdout.reconfigure(errors="backslashreplace")
            if isinstance(sys.stdout.buffer, io.RawIOBase):  # which drops what a write left
                whole = {"encoding": sys.stdout.encoding, "errors": sys.stdout.errors}
                sys.stdout = open(sys.stdout.fileno(), "w", 1, **whole, closefd=False)
        try:
            yield
        finally:
            sys.stdout.flush()
    except Fault as fault:
        print(f"{name}: {fault}", file=sys.stderr)
        sys.exit(2 if isinstance(fault, Usage) else 1)
    except OSError as fault:
        os.dup2(os.open(os.devnull, os.O_WRONLY), 1)
        if not isinstance(fault, BrokenPipeError):
            print(f"{name}: standard output: {fault.strerror}", file=sys.stderr)
        sys.exit(1)
    except MemoryError as fault:
        print(f"{name}: memory refused: {fault}", file=sys.stderr)
        sys.exit(1)
    except KeyboardInterrupt:
        sys.exit(130)


def within(kind: Callable[[str], float], least: float, most: float) -> Callable[[str], float]:
    """A type of argparse: numbers of a kind from `least` to `most`."""

    def number(word: str) -> float:
        with contextlib.suppress(ValueError, OverflowError):
            if least <= kind(word) <= most:
                return kind(word)
        kinds = "integer" if kind is int else "number"
        raise argparse.ArgumentTypeError(f"{word} is no {kinds} from {least} to {most}")

    return number


whole, number = functools.partial(within, int), functools.partial(within, float)


def to_write(*suffixes: str) -> Callable[[str], str]:
    """A type of argparse: files that can be written and have one of these suffixes."""

    def file(word: str) -> str:
        if pathlib.Path(word).suffix not in suffixes:
            raise argparse.ArgumentTypeError(f"{word} is written as {', '.join(suffixes)}")
        if not os.access(pathlib.Path(word).absolute().parent, os.W_OK):
            raise argparse.ArgumentTypeError(f"the folder of {word} is missing or read-only")
        return word

    return file


def word(
    about: str = "", kind: Callable[[str], Any] = str, default: Any = None, **more: Any
) -> dict[str, Any]:
    """The options of a word of argparse, whose help ends with its default."""
    values = default if isinstance(default, (list, tuple)) else [default]
    shown = f"default {' '.join(map(str, values))}"
    parts = [about] * bool(about) + [shown] * (default is not None)
    return {"help": "; ".join(parts), "type": kind, "default": default} | more


def repeated(about: str, kind: Callable[[str], Any], *names: str) -> dict[str, Any]:
    """The options of a word with a value of each name, which may be there several times."""
    sides = {"nargs": len(names), "metavar": names, "action": "append", "default": []}
    return word(f"{about}; may be repeated", kind) | sides


def add_words(reader: argparse.ArgumentParser, words: dict[str, dict[str, Any]]) -> None:
    """Adds words with their options. What follows a colon in a name tells equal words apart."""
    for name, options in words.items():
        reader.add_argument(name.split(":")[0], **options)

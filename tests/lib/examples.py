#!/usr/bin/env python3
"""The worked examples of tests/program/examples, a text for each group. A case begins after an
empty line with `= NAME`. Then come its scene, unless it is the one of the case before, the arguments
after `$`, with `< FILE` if the scene is stored, and all that must be printed. As a script,
`tests/lib/examples.py FOLDER NAME..` writes these cases for `rt try --cases FOLDER`."""

import pathlib
import sys

import needs


def cases():
    """The cases by their names: arguments, scene, and what must be printed."""
    found, scene = {}, ""
    for path in sorted((needs.ROOT / "tests/program/examples").glob("*.txt")):
        for case in path.read_text().split("\n= ")[1:]:
            head, _, told = ("\n" + case).partition("\n$ ")
            name, _, own = head[1:].partition("\n")
            line, _, wanted = told.partition("\n")
            words, _, file = line.partition(" < ")
            scene = (needs.ROOT / file).read_text() if file else own + "\n" if own else scene
            found[name] = words.split(), scene, wanted
    return found


if __name__ == "__main__":
    for name, (words, scene, wanted) in cases().items():
        if name in sys.argv[2:]:
            path = pathlib.Path(sys.argv[1], name)
            path.write_text(scene)
            path.with_suffix(".args").write_text("".join(f"{word}\n" for word in words))
            path.with_suffix(".stdout").write_text(wanted)

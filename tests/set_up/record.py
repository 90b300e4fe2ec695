#!/usr/bin/env python3
"""Prints the record of a run of `make test`, of the log of its gate, the lines of its parts and its seconds: what was proved by which kit,
where each wrong body was refused, what the tests counted, the checksums of program and engine, and the verdicts on the engine, which `make`
builds once for each of its targets. `make archive` packs it."""

import datetime
import hashlib
import os
import pathlib
import re
import subprocess
import sys

sys.path.append(f"{sys.path[0]}/../lib")
import needs


def said_by(*words):
    return subprocess.run(words, capture_output=True, text=True, cwd=needs.ROOT).stdout.strip()


def proofs(log):
    """A line for each crate: its proved functions, and whether this run proved it."""
    crates = (needs.ROOT / "crates.txt").read_text()
    proved = re.compile(r"^logic=proved functions=\d+(?: axioms=\d+)?", re.M)
    for crate in re.findall(r"^(\w+)(?: staticlib)?:", crates, re.M):
        section = re.search(rf"^== {crate}\n(.*?)(?=^== |\Z)", log, re.M | re.S)
        counts = proved.search(section[1] if section else "")
        is_kept = f"{crate} is kept" in log
        earlier = "proved in an earlier run on this machine" if is_kept else "not proved"
        yield f"{crate:20} {counts[0] if counts else earlier}"


def checksums():
    """A line for each file that is built."""
    built = [needs.ROOT / "crates/fhpgas/out/fhpgas"]
    built += sorted((needs.ROOT / "python/fhpgas").glob("libfhpgas-*.so"))
    built += (needs.ROOT / "page").glob("engine.js")
    for path in built:
        yield f"{path.name:24} SHA-256 {hashlib.sha256(path.read_bytes()).hexdigest()}"


def verdicts():
    """What the builds of the engine said: for each target the axioms that it reaches, and the verdict."""
    log = (needs.ROOT / "crates/gas_export/out/build.log").read_text()
    return re.findall(r"^(?:axioms |logic=.* target=).*", log, re.M)


def main():
    log, parts = (pathlib.Path(word).read_text(errors="replace") for word in sys.argv[1:3])
    print(f"kit       {said_by('rt', 'version')}")
    changed = " and changes" if said_by("git", "status", "--porcelain") else ""
    print(f"commit    {said_by('git', 'rev-parse', 'HEAD')}{changed}")
    now, here = datetime.datetime.now(datetime.timezone.utc), f"{os.cpu_count()} processors"
    print(f"ended     {now:%Y-%m-%d %H:%M} UTC, after {sys.argv[3]} seconds on {here}")
    print(f"gate      {log.strip().splitlines()[-1]}")
    for title, lines in {
        "Checksums": checksums(),
        "Proofs": proofs(log),
        "The engine": verdicts(),
        "Wrong bodies": re.findall(r"must-fail (\w+/.*)", log),
        "Tests": parts.splitlines(),
    }.items():
        print(f"\n{title}\n", *lines, sep="\n")


main()

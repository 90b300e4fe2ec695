#!/usr/bin/env python3
"""Makes the crate fhpgas from the crates' sources, without the kit. Needs Python alone.

    plain/workspace.py FOLDER               the crate, which looks at every index
    plain/workspace.py FOLDER --proved TEXT a release build of the member `engine` trusts the proofs
                                            of the text of this name

The crate is a front, below it the sources as private modules, and the program as a bin: `cargo test`,
`cargo package` and `cargo install --path` work as for any. Two more packages have the same modules:
`engine` builds the program and the library for C, and `checks` has the tests of the sources. If
Debian's packages of crates are installed, cargo takes these, and no network (`--offline`)."""

from __future__ import annotations

import argparse
import json
import pathlib
import re
import sys

import strip

ROOT = pathlib.Path(__file__).resolve().parents[1]
DEBIAN = pathlib.Path("/usr/share/cargo/registry")
LEFT_OUT = {"probes", "example_columns"}
SHIMMED = "clap", "rand_core", "rtrb", "toml"  # crates whose names the shim has
ALLOWED = "#[allow(warnings, clippy::all)] "
SAFE = "#[forbid(unsafe_code)] " + ALLOWED
MAIN = "#![cfg_attr(unix, no_main)] #![allow(warnings, clippy::all)] "
# A call for C as strip.py writes it, before the function that it calls.
CALL_FOR_C = re.compile(r"^#\[unsafe\(export_name.*? \} \} (?=pub fn )", re.M)
PACKAGE = """\
[package]
name = "{name}"
version = "{version}"
edition = "2024"
rust-version = "1.85"
license = "MIT OR Apache-2.0"
"""
BIN = """
[[bin]]
name = "fhpgas"
path = "{place}src/main.rs"
required-features = ["program"]
doc = false
test = false
"""
LIBRARY = """
[lib]
name = "fhpgas"
path = "lib.rs"
crate-type = ["cdylib"]
doc = false
test = false
"""
# Rust's own ChaCha chooses the best instructions as it runs, where there is a system.
PARTS = """
[features]
default = [DEFAULT]
# Reads and writes lattices as the texts of scenes.
scenes = ["dep:thiserror", "dep:toml"]
# The program `fhpgas`.
program = ["scenes", "dep:arrayvec", "dep:clap", "dep:crossbeam-utils"]
# Leaves out the test of each index, because it is proved in the sources that none is out of bounds.
trusting = []

[dependencies]
rand_chacha = { version = "0.3", default-features = false }
rand_core = { version = "0.6", default-features = false }
arrayvec = { version = "0.7", optional = true }
clap = { version = "4", optional = true, default-features = false, features = [
    "std", "help", "usage", "error-context", "suggestions"
] }
crossbeam-utils = { version = "0.8", optional = true }
thiserror = { version = "1", optional = true }
toml = { version = "0.5", optional = true }

[target.'cfg(not(target_arch = "wasm32"))'.dependencies]
rand_chacha = "0.3"
"""
FOR_INDEXES = """\
description = "Bit-exact lattice gases: FHP-I, FHP with rest particles, and HPP"
keywords = ["lattice-gas", "cellular-automata", "fluid", "simulation", "physics"]
categories = ["science", "simulation"]
"""
DOCS = """
[package.metadata.docs.rs]
features = ["scenes"]
"""
WORKSPACE = """
[workspace]
members = ["checks", "engine"]

[profile.dev]
opt-level = 1
debug = "line-tables-only"

[profile.dev.package]
"*".opt-level = 0
checks.opt-level = 3
rand_chacha.opt-level = 3
ppv-lite86.opt-level = 3

[profile.release]
panic = "abort"
codegen-units = 1
"""
# No program loads a library of another interface.
BUILD = """\
fn main() {{
    if std::env::var("CARGO_CFG_TARGET_OS").as_deref() == Ok("linux") {{
        println!("cargo:rustc-cdylib-link-arg=-Wl,-soname,libfhpgas.so.{interface}");
    }}
}}
"""
CONFIG = f"""\
[source.crates-io]
replace-with = "debian"

[source.debian]
directory = "{DEBIAN}"
"""


def crates() -> dict[str, list[str]]:
    """The crates, and what each line of crates.txt names, lower crates first."""
    lines = (ROOT / "crates.txt").read_text().splitlines()
    found = [re.fullmatch(r"(\w+)(?: staticlib)?:(.*)", line) for line in lines]
    return {it[1]: it[2].split() for it in found if it and it[1] not in LEFT_OUT}


def below(name: str, uses: dict[str, list[str]]) -> set[str]:
    """A crate and all that it is built from."""
    return {name}.union(*(below(it, uses) for it in uses.get(name, ())))


def written(file: str, pattern: str) -> str:
    """What a file of the sources has, nothing if it has it not."""
    found = re.search(pattern, (ROOT / file).read_text(), re.M)
    return found[1] if found else ""


def write(path: pathlib.Path, text: str) -> None:
    """Writes a file if it is not there as it must be, so that cargo builds only what changed."""
    path.parent.mkdir(parents=True, exist_ok=True)
    if not path.exists() or path.read_text() != text:
        path.write_text(text)


def inside(text: str, home: str, modules: dict[str, str]) -> str:
    """The text of a module of one crate, from a file of the crate `home` or of the program: paths
    begin with modules of this crate where they began with crates."""
    tokens = [found[0] for found in strip.TOKEN.finditer(text)]
    for i, token in enumerate(tokens[:-2]):
        begins = tokens[i + 1 : i + 3] == [":", ":"] and tokens[i - 1 : i] != [":"]
        if begins and token == "crate" and home:
            tokens[i] = f"crate::{home}"
        elif begins and token in modules and tokens[i - 1 : i] != ["."]:
            tokens[i] = modules[token]
    text = re.sub(r"crate::gas_scene::(?=with_lattice\b)", "crate::", "".join(tokens))
    return text.replace("#[macro_export]", "#[doc(hidden)] #[macro_export]")


def declared(names: list[str], place: str = "") -> str:
    """The declarations of modules, which lie in another package if a place is given. The shim alone
    may have unsafe code."""
    path = f'#[path = "{place}{{name}}/mod.rs"] ' if place else ""
    shim = f"{path.format(name='shim')}#[allow(unsafe_code)] {ALLOWED}mod shim; "
    modules = (f"{path.format(name=name)}{SAFE}mod {name}; " for name in names)
    return "extern crate alloc as heap; " + shim + "".join(modules)


def write_modules(name: str, to: pathlib.Path, modules: dict[str, str], attribute: str) -> str:
    """Writes the plain sources of a crate as a module, or of the program, whose file gets the
    attribute. Returns the calls for C."""
    sources, calls = ROOT / "crates" / name / "src", list[str]()
    for path in sorted(sources.rglob("*.rt")):
        try:
            text = strip.plain(path.read_text(), attribute * (path.name == "main.rt"))
        except strip.NotPlain as fault:
            sys.exit(f"{path.relative_to(ROOT)}: {fault}")
        place = path.relative_to(sources).with_suffix(".rs")
        home = "" if name == "fhpgas" else name
        made = inside(CALL_FOR_C.sub("", text), home, modules)
        write(to / home / ("mod.rs" if str(place) == "lib.rs" else place), made)
        calls += [inside(call, home, modules) for call in CALL_FOR_C.findall(text)]
    return "\n".join(calls)


def write_packages(folder: pathlib.Path, proved: str | None) -> None:
    """The manifests, the licences and README of the crate."""
    address = written("CITATION.cff", "^repository-code: (.+)$")
    about = FOR_INDEXES + (f"repository = {json.dumps(address)}\n" if address else "")
    trusting = PARTS.replace("DEFAULT", '"program", "trusting"' if proved else '"program"')
    checked = PARTS.replace("DEFAULT", '"program"')
    manifests = {
        "fhpgas": about + DOCS + BIN.format(place="") + PARTS.replace("DEFAULT", "") + WORKSPACE,
        "engine": BIN.format(place="../") + LIBRARY + trusting,
        "checks": checked + '\n[dev-dependencies]\nrand_pcg = "0.3"\n',
    }
    for name, text in manifests.items():
        head = PACKAGE.format(name=name, version=written("CITATION.cff", "^version: (.+)$"))
        write(folder / ("" if name == "fhpgas" else name) / "Cargo.toml", head + text)
    for name in "LICENSE-MIT", "LICENSE-APACHE":
        write(folder / name, (ROOT / name).read_text())
    interface = written("include/fhpgas.h", r"FHPGAS_INTERFACE (\d+)")
    write(folder / "engine/build.rs", BUILD.format(interface=interface))
    said = re.findall(r"^//! ?(?!# Ok)(.*)", (ROOT / "plain/front.rs").read_text(), re.M)
    write(folder / "README.md", "\n".join(["# fhpgas\n", *said, ""]))


def make(folder: pathlib.Path, proved: str | None = None, checked: str = "tests_") -> None:
    """Writes the packages. In `checks` are the crates of tests whose names match `checked`."""
    names = f"(?!tests_)|{checked}"
    uses = {name: used for name, used in crates().items() if re.match(names, name)}
    tests = [name for name in uses if name.startswith("tests_")]
    library = sorted(below("gas_export", uses) & uses.keys())
    scenes = sorted(below("gas_scene", uses) & uses.keys() - {*library})
    program = [name for name in uses if name not in (*tests, "fhpgas")]
    modules = {name: f"crate::{name}" for name in ("shim", *uses)}
    modules |= {name: f"crate::shim::{name}" for name in SHIMMED}
    calls = ""
    for name in uses:
        to = folder / ("checks/src" if name in tests else "src")
        calls += write_modules(name, to, modules, MAIN + declared(program))
    trusted = proved or f"fhpgas {written('CITATION.cff', '^version: (.+)$')}"
    for path in sorted((ROOT / "plain/shim/src").glob("*.rs")):
        write(folder / "src/shim" / path.name, path.read_text().replace("PROVED", trusted))
    roots = {"front.rs": "src/lib.rs", "engine.rs": "engine/lib.rs"}
    for name, place in roots.items():
        known = declared(library, "" if name == "front.rs" else "../src/")
        if name == "front.rs":
            known += "".join(f'#[cfg(feature = "scenes")] {SAFE}mod {it}; ' for it in scenes)
        text = (ROOT / "plain" / name).read_text().replace("// modules", known)
        write(folder / place, text.replace("// calls", calls))
    checks = declared(program, "../../src/") + "".join(f"mod {name}; " for name in tests)
    write(folder / "checks/src/lib.rs", f"#![cfg(test)] #![allow(warnings)] {checks}\n")
    write(folder / "tests/front.rs", (ROOT / "tests/plain/front.rs").read_text())
    write_packages(folder, proved)
    if any(DEBIAN.glob("clap-*")):
        write(folder / ".cargo/config.toml", CONFIG)


def main() -> None:
    parser = argparse.ArgumentParser(
        description=__doc__, formatter_class=argparse.RawDescriptionHelpFormatter
    )
    parser.add_argument("folder", type=pathlib.Path)
    parser.add_argument("--proved", metavar="TEXT")
    options = parser.parse_args()
    make(options.folder, options.proved)


if __name__ == "__main__":
    main()

"""Checks tests/package/tested_functions.txt: every public function and field of the package has a
line there, and its test calls it, itself or by a function of its script."""

import ast
import functools
import inspect

import needs
import pytest

needs.libraries()
import fhpgas  # noqa: E402


def public():
    """The names of the functions that are public, and of the fields and methods of values."""
    for name in fhpgas.__all__:
        if inspect.isfunction(getattr(fhpgas, name)):
            yield name
    for kind in (fhpgas.Lattice, fhpgas.Blocks):
        for name in dir(kind):
            value = inspect.getattr_static(kind, name)
            is_field = isinstance(value, property) or type(value).__name__ == "cached_property"
            if name[0] != "_" and (is_field or isinstance(value, classmethod) or callable(value)):
                yield f"{kind.__name__}.{name}"
    for module in (fhpgas.theory, fhpgas.boltzmann):
        for name, value in vars(module).items():
            if inspect.isfunction(value) and value.__module__ == module.__name__ and name[0] != "_":
                yield f"{module.__name__.rpartition('.')[2]}.{name}"


@functools.cache
def functions(script):
    """The functions of a script of this folder by name, with methods."""
    tree = ast.parse((needs.ROOT / f"tests/package/{script}.py").read_text())
    return {node.name: node for node in ast.walk(tree) if isinstance(node, ast.FunctionDef)}


def names(node, known, seen=()):
    """The names and attributes, also in texts, of a function and of the ones that it uses."""
    found = set()
    for each in ast.walk(node):
        found |= {getattr(each, field, None) for field in ("attr", "id", "value")}
    for name in found & known.keys() - {*seen}:
        found |= names(known[name], known, (*seen, name))
    return found


TEXT = (needs.ROOT / "tests/package/tested_functions.txt").read_text()
ROWS = [line.split(" | ") for line in TEXT.splitlines() if line[0] != "#"]


def test_every_public_function_has_a_line():
    assert {name for name, *_ in ROWS} == {*public()}


@pytest.mark.parametrize("name, test, source", ROWS)
def test_a_test_calls_the_function(name, test, source):
    script, test = test.split()
    known = functions(script)
    assert name.rpartition(".")[2] in names(known[test], known)

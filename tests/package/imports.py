#!/usr/bin/env python3
"""Draws which module of the Python package and of the page imports which, with --draw as text: a module must not import itself through
others, the data (lattice and blocks) must not import pictures, and nothing may use what another module of the package keeps private.
Imports for types alone and inside of functions, such as of `plot`, are of what comes later and count for nothing."""

import ast
import graphlib
import pathlib
import re
import sys

ROOT = pathlib.Path(__file__).resolve().parents[2]
PACKAGE, PAGE = ROOT / "python/fhpgas", ROOT / "page/src"
APART = [("lattice", "pictures"), ("blocks", "pictures"), ("reader", "lattice")]  # may not reach


def statements(tree):
    """The nodes of a module, without the ones for types alone and inside of functions, which run later."""
    waiting = [tree]
    while waiting:
        node = waiting.pop()
        yield node
        if isinstance(node, ast.If) and "TYPE_CHECKING" in ast.unparse(node.test):
            continue
        if not isinstance(node, (ast.FunctionDef, ast.Lambda)):
            waiting += ast.iter_child_nodes(node)


def package():
    """Per module of the package the ones that it imports, and the private names of others that it uses."""
    texts = {path.stem: path.read_text() for path in sorted(PACKAGE.glob("*.py"))}
    graph, private = {}, []
    for name, text in texts.items():
        here, taken = {}, []
        for node in statements(ast.parse(text)):
            if isinstance(node, ast.ImportFrom) and node.level == 1:
                names = {it.asname or it.name: it.name for it in node.names}
                taken += [it for it in names.values() if it.startswith("_")]
                of_package = {one: it for one, it in names.items() if it in texts}
                here |= {node.module: node.module} if node.module else of_package
        used = re.findall(rf"(?<![.\w])(?:{'|'.join(here)})\._(?!_)\w+", text) if here else []
        private += [f"{name}: {it}" for it in taken + used]
        graph[name] = {*here.values()}
    return graph, private


def page():
    """Per module of the page the ones that it imports."""
    found = re.compile(r'^(?:import|export) [^;]*?from "\./(\w+)\.js"|^import "\./(\w+)\.js"', re.M)
    return {
        path.stem: {one or other for one, other in found.findall(path.read_text())}
        for path in sorted(PAGE.glob("*.js"))
    }


def reached(graph, start):
    """The modules that a module imports, through others too."""
    found, waiting = set(), [start]
    while waiting:
        new = graph.get(waiting.pop(), set()) - found
        found |= new
        waiting += new
    return found


def test_package_and_page_have_no_cycle_of_imports():
    for graph in package()[0], page():
        graphlib.TopologicalSorter(graph).prepare()


def test_no_module_of_the_package_uses_what_another_keeps_private():
    assert not package()[1]


def test_modules_that_are_apart_do_not_reach_one_another():
    graph = package()[0]
    for one, other in APART:
        assert {one, other} <= graph.keys() and other not in reached(graph, one)


if __name__ == "__main__" and sys.argv[1:] == ["--draw"]:
    for graph in package()[0], page():
        for name, below in graph.items():
            print(f"{name}: {' '.join(sorted(below))}")

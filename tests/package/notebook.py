"""Runs the notebooks of notebooks/: no cell may fail or warn, and all texts must be those that the notebook keeps. The last section of the
first one also runs with other values, which its text invites one to try. With --keep the notebook keeps what this run shows, with pictures
of few colours."""

import base64
import io
import itertools

import needs
import pytest

needs.libraries("nbclient", "nbformat", "ipykernel")

import nbformat  # noqa: E402
from nbclient import NotebookClient  # noqa: E402
from PIL import Image  # noqa: E402

NOTEBOOKS = sorted((needs.ROOT / "notebooks").glob("*.ipynb"))
MOST_BYTES = 600_000
CHOSEN = 'GAS, CHIRALITY, ROWS, FILLING = "fhp1", "seeded", 64, 0.3'
TRIED = [
    *itertools.product(["fhp1"], ("seeded", "left"), (0.05, 0.1, 0.15, 0.5)),
    *itertools.product(["fhp-rest"], ("seeded", "right"), (0.05, 0.5)),
]


def texts(cell):
    """What a cell shows as text."""
    outs = cell.get("outputs", [])
    return "".join(out.get("text") or out.get("data", {}).get("text/plain", "") for out in outs)


def shrink(cell):
    """Leaves few colours in the pictures of a cell, rare ones too, as of the ends of a bar."""
    for out in cell.get("outputs", []):
        if "image/png" in out.get("data", {}):
            large = io.BytesIO(base64.b64decode(out["data"]["image/png"]))
            small, picture = io.BytesIO(), Image.open(large)
            few = picture.convert("RGB").quantize(method=Image.Quantize.MAXCOVERAGE)
            few.save(small, "png", optimize=True)
            out["data"]["image/png"] = base64.b64encode(small.getvalue()).decode()


@pytest.mark.parametrize("path", NOTEBOOKS, ids=lambda path: path.name)
def test_a_notebook_shows_what_it_keeps(program, monkeypatch, request, path):
    monkeypatch.setenv("MPLBACKEND", "module://matplotlib_inline.backend_inline")  # as Jupyter
    monkeypatch.setenv("PYDEVD_DISABLE_FILE_VALIDATION", "1")  # or the kernel's debugger warns
    before = nbformat.read(path, 4)
    after = nbformat.from_dict(before)
    known = {"kernel_name": "python3", "resources": {"metadata": {"path": str(path.parent)}}}
    NotebookClient(after, timeout=needs.PATIENCE, **known).execute()
    for kept, ran in [] if request.config.getoption("keep") else zip(before.cells, after.cells):
        assert not any(out.get("name") == "stderr" for out in ran.get("outputs", [])), texts(ran)
        assert texts(kept) == texts(ran)
    if request.config.getoption("keep"):
        for cell in after.cells:
            shrink(cell)
            cell.metadata.pop("execution", None)
        nbformat.write(after, path)
    assert path.stat().st_size <= MOST_BYTES


@pytest.mark.parametrize("gas, side, filling", TRIED)
def test_the_first_class_takes_other_values(program, monkeypatch, gas, side, filling):
    """Of the gas, the chirality and the filling of its viscosity."""
    monkeypatch.chdir(needs.ROOT / "notebooks")
    monkeypatch.setenv("MPLBACKEND", "Agg")
    notebook = nbformat.read("first_class.ipynb", 4)
    cells = [cell.source for cell in notebook.cells if cell.cell_type == "code"]
    first, names = next(n for n, source in enumerate(cells) if CHOSEN in source), {}
    chosen = f"GAS, CHIRALITY, ROWS, FILLING = {gas!r}, {side!r}, 64, {filling}"
    for source in (cells[0], *cells[first:]):
        exec(source.replace(CHOSEN, chosen), names)

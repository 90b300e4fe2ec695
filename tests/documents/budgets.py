"""How much there may be of what tends to grow: words that a reader meets, a word with a letter or a digit,
and lines of sources. A row of BUDGETS has what is counted, in which files together, and the most of it.
Who needs more takes out as much first. CHANGELOG and LOG grow with every change, so they have no row."""

import re

import links
import pytest

pytestmark = pytest.mark.sources


def words(path):
    return sum(bool(re.search(r"\w", word)) for word in path.read_text().split())


def lines(path):
    return path.read_text().count("\n")


def size(path):
    return path.stat().st_size


BUDGETS = [
    (words, "README.md", 890),  # what is read first
    (words, "CONTRIBUTING.md", 1_430),
    (words, "docs/ANSWERS.md", 1_630),
    (words, "docs/ARCHITECTURE.md", 1_800),
    (words, "docs/DECISIONS.md", 2_700),
    (words, "docs/EXPERIMENTS.md docs/DERIVATION.md", 5_600),
    (words, "docs/FORMATS.md", 2_250),
    (words, "docs/GLOSSARY.md", 650),
    (words, "docs/GUIDE.md", 2_200),
    (words, "docs/LESSON.md", 480),  # a sheet
    (words, "docs/LIBRARY.md", 630),
    (words, "docs/NOTICES.md", 250),
    (words, "docs/PERFORMANCE.md", 950),
    (words, "docs/PHYSICS.md", 1_920),
    (words, "docs/PROVED.md", 3_100),
    (words, "docs/TROUBLE.md", 450),
    (words, "plain/README.md", 400),
    (words, "scenes/reference/README.md", 200),
    (lines, "experiments/*.py", 1_850),
    (lines, "page/src/*", 4_350),
    (size, "page/fhpgas.html", 168_000),
]
GROWING = {"CHANGELOG.md", "bench/LOG.md"}


def files(patterns):
    return [path for it in patterns.split() for path in links.ROOT.glob(it)]


@pytest.mark.parametrize("count, patterns, most", BUDGETS, ids=[row[1] for row in BUDGETS])
def test_budget(count, patterns, most):
    assert 0 < sum(map(count, files(patterns))) <= most


def test_every_document_has_a_row():
    counted = [path for count, patterns, _ in BUDGETS if count is words for path in files(patterns)]
    growing = [links.ROOT / name for name in GROWING]
    assert sorted(counted + growing) == links.documents()

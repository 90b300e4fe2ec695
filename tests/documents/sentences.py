"""Reads the documents as text. Code, tables and headings have no sentences. Paragraphs and items of
lists begin sentences. Fails if a document has a sentence of more than MOST_WORDS and is not in LONG."""

import re

import links
import pytest

MOST_WORDS = 40
LONG = ["docs/ANSWERS.md", "docs/PROVED.md", "bench/LOG.md"]  # promises and figures in a row


def without_code(text):
    return re.sub(r"(?s)<!--.*?-->|<[^>\n]+>", "", links.FENCE.sub("\n\n", text))


def sentences(text):
    text = re.sub(r"^(\||#|\[[^\]]+\]:).*$", "", without_code(text), flags=re.M)
    for paragraph in re.split(r"\n\s*\n|\n\s*(?:[-*]|\d+\.)\s", "\n" + text):
        plain = re.sub(r"`[^`]*`", "CODE", " ".join(paragraph.split()))
        plain = re.sub(r"!?\[([^\]]*)\]\([^)]*\)", r"\1", plain)
        yield from re.split(r"(?<=[.!?])[\"')*_]*\s+", plain)


TEXTS = {str(path.relative_to(links.ROOT)): path.read_text() for path in links.documents()}


@pytest.mark.parametrize("name", sorted(TEXTS.keys() - LONG))
def test_document(name):
    assert not [it for it in sentences(TEXTS[name]) if len(it.split()) > MOST_WORDS]

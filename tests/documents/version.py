#!/usr/bin/env python3
"""Compares version, date and address everywhere with their home, CITATION.cff. With --write it writes
them to the other places. A version without a date is `unreleased`, and CHANGELOG dates only what has a
tag. (command_line.py compares the program with the home.)"""

import re
import subprocess
import sys

sys.path.append(f"{sys.path[0]}/../lib")
import needs

HOME = dict(re.findall(r"^([\w-]+): (.+)$", (needs.ROOT / "CITATION.cff").read_text(), re.M))
NUMBER, DATE = HOME["version"], HOME.get("date-released", "unreleased")
ADDRESS = HOME.get("repository-code")
DOWNLOAD = "Download [this file](page/fhpgas.html), open it,"
PAGE = f"Open [the page]({HOME['url']})" if "url" in HOME else DOWNLOAD
CLONE = f"after `git clone {ADDRESS} fhpgas && cd fhpgas`" if ADDRESS else "in a clone"
PLACES = [  # a file, what is before and after the place, what --write may replace, and by what
    ("crates/gas_tool_cli/src/help.rt", 'VERSION: &str = "', " (", r"[\d.]+", NUMBER),
    ("python/fhpgas/__init__.py", '__version__ = "', '"\n', r"[\d.]+", NUMBER),
    ("CHANGELOG.md", "\n## ", "\n", r"[\d.]+, unreleased", f"{NUMBER}, {DATE}"),
    ("CONTRIBUTING.md", "git clone ", " ", r"\S+", ADDRESS or "REPOSITORY"),
    ("README.md", "\nThen, ", ":\n", r"in a clone|after `[^`]+`", CLONE),
    ("README.md", "**In a browser.** ", " and draw an obstacle.", r".+", PAGE),
]


def test_places():
    for name, before, after, _, new in PLACES:
        assert before + new + after in (needs.ROOT / name).read_text(), name


def test_what_changelog_dates_has_a_tag():
    dated = re.findall(r"^## ([\d.]+), \d", (needs.ROOT / "CHANGELOG.md").read_text(), re.M)
    tags = subprocess.check_output(["git", "tag"], text=True, cwd=needs.ROOT).split()
    # the version of today is dated before its tag
    assert {f"v{number}" for number in dated} <= {f"v{NUMBER}", *tags}


if __name__ == "__main__" and sys.argv[1:] == ["--write"]:
    for name, before, after, old, new in PLACES:
        path, place = needs.ROOT / name, f"{re.escape(before)}(?:{old}){re.escape(after)}"
        wanted = before + new + after
        path.write_text(re.sub(place, lambda _: wanted, path.read_text(), 1))

"""Runs the scripts that a shell or node runs best. What one prints is shown if it fails."""

import os
import subprocess

import needs
import pytest

pytestmark = pytest.mark.alone
SCRIPTS = {  # and what they want
    "set_up/lint.sh": "bash",
    "set_up/missing_libraries.sh": "python3",
    "set_up/makefile.sh": "make",
    "set_up/release.sh": "rt",
    "plain/crates.sh": "cargo",
    "plain/front.sh": "cargo",
    "page/kernel.mjs": "node",
    "page/model.mjs": "node",
}


@pytest.mark.parametrize("script", SCRIPTS)
def test_script(tool, script):
    tool(SCRIPTS[script])
    words = ["node", "--test"] if SCRIPTS[script] == "node" else []
    known = {"cwd": needs.ROOT, "env": os.environ | {"PATH": os.environ["CALLERS_PATH"]}}
    done = subprocess.run([*words, f"tests/{script}"], capture_output=True, text=True, **known)
    print(done.stdout, done.stderr)
    if done.returncode == needs.LEFT_OUT:
        pytest.skip(done.stdout.splitlines()[-1])
    assert done.returncode == 0

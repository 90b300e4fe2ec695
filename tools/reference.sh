#!/bin/bash
# Makes the reference of the Python package from its docstrings, as pages of HTML in FOLDER. It needs Sphinx and numpydoc (apt-get install
# python3-sphinx python3-numpydoc).
set -euo pipefail
if [ -z "${1-}" ]; then echo 'usage: tools/reference.sh FOLDER' >&2; exit 2; fi
folder=$(realpath -m -- "$1")
cd "$(dirname "$0")/.."
python=$(tests/lib/needs.py | sed -n 1p)
room=$(mktemp -d)
trap 'rm -rf "$room"' EXIT
cat > "$room/conf.py" << END
import sys
sys.path.insert(0, "$PWD/python")
project, extensions, default_role = "fhpgas", ["sphinx.ext.autodoc", "numpydoc"], "code"
autodoc_member_order, autodoc_typehints, numpydoc_show_class_members = "bysource", "none", False
html_show_copyright = html_copy_source = False
END
{
    printf 'fhpgas\n======\n\n.. automodule:: fhpgas\n\n'
    for module in lattice random_gas blocks fields shapes drive observe pictures theory boltzmann gases scenes plans beside refusals tiles; do
        printf '%s\n' "$module" "${module//?/-}" '' ".. automodule:: fhpgas.$module" '   :members:' ''
    done
} > "$room/index.rst"
"$python" -m sphinx -q -b html -d "$room/trees" "$room" "$folder"

"""What pyproject.toml cannot say: version and address stand in CITATION.cff, a package takes what is
built here, the program and the engine, and one that has it is for one system and one kind."""
import ast
import pathlib
import re
import shutil

from setuptools import Distribution, setup
from setuptools.command.build_py import build_py

try:
    from setuptools.command.bdist_wheel import bdist_wheel
except ImportError:  # before setuptools 70.1
    from wheel.bdist_wheel import bdist_wheel

TOP = pathlib.Path(__file__).resolve().parent
SAID = dict(re.findall(r"^([\w-]+): (.+)$", (TOP / "CITATION.cff").read_text(), re.M))
PACKAGE = TOP / "python/fhpgas"
ENGINES = [*PACKAGE.glob("libfhpgas-*.so")]
# The program of the package, of a clone, proved or plain, and of an archive. The launcher of a clone is none.
PLACES = (
    PACKAGE / "fhpgas",
    TOP / "crates/fhpgas/out/fhpgas",
    TOP / "out/plain/fhpgas",
    TOP / "fhpgas",
)
IS_ELF = [path for path in PLACES if path.is_file() and path.read_bytes()[:4] == b"\x7fELF"]
PROGRAM = IS_ELF[:1]
CONTENTS = [path.read_bytes() for path in ENGINES + PROGRAM]
MACHINES = {62: "x86_64", 183: "aarch64"}  # by the number in byte 18 of an ELF file


def platform():
    """The tag of the system that runs what is built: its processor, and the newest version of glibc
    of which it calls something."""
    if not CONTENTS:
        return "any"
    versions = [int(found) for each in CONTENTS for found in re.findall(rb"GLIBC_2\.(\d+)", each)]
    return f"manylinux_2_{max(17, *versions)}_{MACHINES[CONTENTS[0][18]]}"


def kind():
    """The tag of a build. Of two wheels that fit pip takes the one with the larger number."""
    return "0plain" if any(b"plain Rust, " in each for each in CONTENTS) else "1proved"


def description():
    """The page of the package: what it says of itself, with a picture if it has an address."""
    text = ast.get_docstring(ast.parse((PACKAGE / "__init__.py").read_text()))
    picture = f"{SAID.get('repository-code')}/raw/v{SAID['version']}/docs/images/street.png"
    return f".. image:: {picture}\n\n{text}\n" if "repository-code" in SAID else f"{text}\n"


def urls():
    address = SAID.get("repository-code")
    named = {
        "Homepage": "",
        "Documentation": "/blob/HEAD/docs/GUIDE.md",
        "Repository": "",
        "Changelog": "/blob/HEAD/CHANGELOG.md",
    }
    return {name: address + path for name, path in named.items()} if address else {}


class Build(build_py):
    def run(self):
        super().run()
        for path in PROGRAM:
            shutil.copy(path, pathlib.Path(self.build_lib) / "fhpgas/fhpgas")


class Package(Distribution):
    def has_ext_modules(self):
        return bool(CONTENTS)


class Wheel(bdist_wheel):
    def finalize_options(self):
        super().finalize_options()
        if CONTENTS:
            self.build_number = kind()

    def get_tag(self):
        return "py3", "none", platform()


setup(
    version=SAID["version"],
    long_description=description(),
    long_description_content_type="text/x-rst",
    project_urls=urls(),
    distclass=Package,
    cmdclass={"bdist_wheel": Wheel, "build_py": Build},
)

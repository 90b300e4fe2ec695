"""What the experiments share: the way to the package, a command line, lines of output, and axes for
a figure."""
import contextlib
import importlib.util
import pathlib
import sys
import warnings

sys.path.insert(0, str(pathlib.Path(__file__).resolve().parents[1] / "python"))
for name in ("numpy", "scipy"):
    if not importlib.util.find_spec(name):
        sys.exit(f"{sys.argv[0]} needs {name}, and this Python has none (Debian: python3-{name})")

import fhpgas
import numpy as np
from fhpgas import theory
from fhpgas.words import Parser, number, one_line_faults, to_write, whole, word

GASES = sorted(fhpgas.GASES, key=lambda name: fhpgas.GASES[name].is_square)
FLUIDS = [name for name in GASES if not fhpgas.GASES[name].is_square]
warnings.simplefilter("ignore", theory.Correlated)  # what is measured is printed beside


class Options(Parser):
    """The command line of a script, whose faults are one line. `--small` chooses other defaults,
    with which the tests run the experiment. If it takes gases, the usual one is fhp1."""

    def __init__(self, figure, gases=(), usual="fhp1", seeds=None):
        super().__init__(description=sys.modules["__main__"].__doc__, allow_abbrev=False)
        self.is_small = "--small" in sys.argv[1:]
        text = "other defaults: a run of some seconds"
        self.add_argument("--small", action="store_true", help=text)
        file = to_write(".png", ".pdf", ".svg")
        self.word("--picture", f"draw {figure}: .png, .pdf, .svg", file, metavar="FILE")
        if gases:
            self.word("--gas", default=usual, choices=gases)
        if seeds:
            self.option("--seeds", whole(2, 1000), *seeds, "how many")

    def option(self, name, kind, default, small, text, **more):
        """An option with a default, and another for `--small`. It takes one or more values if they
        are lists."""
        value = small if self.is_small else default
        more |= {"nargs": "+"} if isinstance(value, list) else {}
        self.word(name, text, kind, value, **more)

    def word(self, name, *words, **more):
        self.add_argument(name, **word(*words, **more))

    def filling(self, least, most, usual):
        self.option("--filling", number(least, most), *[usual] * 2, "the filling d", metavar="D")

    def fillings(self, small):
        tenths = [0.1, 0.2, 0.3, 0.4, 0.5]
        self.option("--filling", number(0.02, 0.6), tenths, small, "fillings", metavar="D")

    def chirality(self):
        sides = "seeded", "left", "right"
        self.option("--chirality", str, *sides[:1] * 2, "seeded, left or right", choices=sides)


def experiment(main):
    """Runs the last function of the script that was started, whose faults are one line."""
    if main.__module__ == "__main__":
        with one_line_faults(pathlib.Path(sys.argv[0]).name):
            main()


def runs(measured, asked):
    """What a function of a seed returns for the seeds 1 to `--seeds`, on all cores."""
    return fhpgas.side_by_side(measured, range(1, asked.seeds + 1))


def compare(name, values, theory, digits=3):
    """Prints what theory says beside the mean of some values and its error, which it returns."""
    return show(name, *fhpgas.mean_and_error(values), theory, digits)


def show(name, mean, error, theory, digits=3):
    shown = [round(float(n), digits) + 0.0 for n in (mean, error, theory)]  # -0.0 is printed as 0.0
    line = "{:34} measured {:8.{d}f} +- {:.{d}f}  theory {:8.{d}f}"
    print(line.format(name, *shown, d=digits), flush=True)
    return mean, error


def jackknife(estimate, samples):
    """An estimate from the mean of all samples, and its standard error, from the estimates without
    one of them. A ratio with a noisy denominator is less biased so than its mean over samples."""
    samples = np.array(samples)
    number, total = len(samples), samples.sum(0)
    without = [estimate(each) for each in (total - samples) / (number - 1)]
    return estimate(total / number), np.sqrt((number - 1) * np.var(without, 0))


@contextlib.contextmanager
def axes(path, rows=1, columns=1, size=(5, 3.6), **layout):
    """Axes of matplotlib, or an array of them, which a file shows afterwards."""
    from matplotlib.figure import Figure

    figure = Figure((columns * size[0], rows * size[1]), layout="constrained")
    yield figure.subplots(rows, columns, **layout)
    figure.savefig(path, dpi=120)

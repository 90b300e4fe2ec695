"""Runs the small form of every experiment, whose seeds are fixed: what it measures must be what theory says within its error, and far from
what theory says of another gas. Every figure must show something. Compares theory, the Boltzmann solution and published formulas, and
checks that a wrong use is refused in one line."""

import re
import subprocess
import sys
import tempfile

import needs
import pytest

needs.libraries()
needs.built_program()
import numpy as np
from PIL import Image

sys.path.insert(0, str(needs.ROOT / "experiments"))

import rows as rows_script
import street as street_script
from common import FLUIDS, GASES
from fhpgas import Fault, Lattice, boltzmann, theory
from scipy.special import airy

SIGNS = {"seeded": 0, "left": -1, "right": 1}
LINE = re.compile(r"^(.*?) +measured +(\S+) \+- (\S+)  theory +(\S+)$", re.M)
ERRORS = 4  # standard errors between measurement and theory, which come from few seeds
CORRELATIONS = 0.12  # by which a measured viscosity may exceed Boltzmann's
FORMULAS = {  # published viscosities
    ("fhp1", "seeded"): lambda d: 1 / (12 * d * (1 - d) ** 3) - 1 / 8,
    ("fhp1", "left"): lambda d: 1 / (16 * d * (1 - d) ** 3) - 1 / 8,
    ("fhp-rest", "seeded"): lambda d: 1 / (28 * d * (1 - d) ** 3 * (1 - 4 * d / 7)) - 1 / 8,
}
COLLIDING = {"fhp1": "5 of 64", "fhp-rest": "22 of 128", "hpp": "2 of 16"}  # states, by hand
REFUSED = """
viscosity.py --gas hpp | viscosity.py --filling 2 | viscosity.py --seeds 1 | viscosity.py --colour
viscosity.py --chirality up | galilean.py --gas hpp | galilean.py --width 200 | galilean.py --wave 100
invariants.py --size 33 | street.py --radius 0 | street.py --small --scene street.png
sound.py --filling 0.2 0.3 | sound.py --filling nan | porous.py --small --share 0.71
equilibrium.py --size few | reversal.py --small --picture /none/there.png | collisions.py --gas fhp3
porous.py --settled 1 | poiseuille.py --spans 0 | response.py --triples 2
"""


def numbers_of(line):
    return [float(number) for number in line.replace("+-", "").split()]


def ran(words):
    """The status, output and error output of an experiment."""
    script, *options = words.split()
    path = needs.ROOT / "experiments" / script
    assert path.stat().st_mode & 0o100, f"{script} can't be started by its name"
    done = subprocess.run([sys.executable, path, *options], capture_output=True, text=True)
    return done.returncode, done.stdout, done.stderr


def printed(words):
    """The output of an experiment that draws its figure, which must have some ink and not be all ink."""
    with tempfile.TemporaryDirectory() as folder:
        status, output, fault = ran(f"{words} --picture {folder}/figure.png")
        assert (status, fault) == (0, "")
        shades = np.asarray(Image.open(f"{folder}/figure.png").convert("L"))
    assert min(shades.shape) >= 200 and 0.005 < np.mean(shades < 200) < 0.9
    return output


def are_as_in_theory(words, names, most_error=0.1):
    """The measurements whose names begin with one of these are within their errors, which are small
    beside what is expected, or where that is 0 beside the smallest other number."""
    lines = [line for line in LINE.findall(printed(words)) if line[0].startswith(tuple(names))]
    found = [(name, *map(float, numbers)) for name, *numbers in lines]
    assert len(found) >= len(names), f"{len(found)} measurements"
    smallest = min(abs(expected) for *_, expected in found if abs(expected) > 0.01)
    for name, measured, error, expected in found:
        told = f"{name}: {measured} +- {error}, theory {expected}"
        assert abs(measured - expected) <= ERRORS * error + 0.001, told
        is_sharp = error <= most_error * max(abs(expected), smallest)
        assert is_sharp, f"{told}: the error is too large to tell anything"
    return {name: (measured, error) for name, measured, error, _ in found}


SOUND = "speed of sound", "damping D"
IN_THEORY = [
    *(("green_kubo", gas, ("stress after 1", "viscosity", *SOUND), 0.2) for gas in FLUIDS),
    *(("equilibrium", gas, ["direction"], 0.05) for gas in FLUIDS),
    *(("sound", gas, SOUND, 0.1) for gas in FLUIDS),
    *(("galilean", gas, [gas], 0.1) for gas in FLUIDS),
    ("sound", "hpp", [f"{name} diagonal" for name in SOUND], 0.1),
]


@pytest.mark.parametrize("script, gas, names, most_error", IN_THEORY)
def test_measurements_are_as_in_theory(script, gas, names, most_error):
    are_as_in_theory(f"{script}.py --small --gas {gas}", names, most_error)


def test_a_porous_flow_has_the_force_of_theory():
    are_as_in_theory("porous.py --small", ["force"])


@pytest.mark.parametrize(
    "chirality, others",
    (
        ("seeded", [("fhp1", 0.3, "left"), ("fhp-rest", 0.3)]),
        ("left", [("fhp1", 0.3)]),
        ("right", [("fhp1", 0.3)]),
    ),
)
def test_slips(chirality, others):
    """The slip and the odd viscosity of a channel are those of theory, with their signs, and not those of other gases or of no slip."""
    words = f"--gas fhp1 --chirality {chirality} --filling 0.3"
    names = ["8 rows: viscosity", "8 rows: slip K", "8 rows: odd viscosity"]
    found = are_as_in_theory(f"poiseuille.py --small --seeds 16 {words}", names)
    (slip, error), (odd, odd_error) = (found[name] for name in names[1:])
    assert slip > 5 * error, ("no slip", slip, error)
    for other in others:
        assert abs(slip - theory.slip(*other)) > 5 * error, ("the slip of", other, slip, error)
    wanted, sign = theory.odd_viscosity("fhp1", 0.3, chirality), SIGNS[chirality]
    assert abs(odd - wanted) <= ERRORS * odd_error + 0.01, ("odd", odd, odd_error, wanted)
    assert sign * odd > 5 * odd_error or not sign, ("the sign of odd", odd, odd_error)


@pytest.mark.parametrize(
    "gas, side, filling, is_warned",
    (
        ("fhp1", "seeded", 0.1, True),
        ("fhp1", "left", 0.15, True),
        ("fhp1", "right", 0.15, True),
        ("fhp1", "seeded", 0.2, False),
        ("fhp1", "seeded", [0.3, 0.05], True),
        ("fhp-rest", "seeded", 0.2, True),
        ("fhp-rest", "seeded", 0.05, False),
    ),
)
def test_warns(recwarn, gas, side, filling, is_warned):
    """Viscosities and numbers warn where correlations are large, and only there."""
    theory.viscosity(gas, filling, side)
    numbers = isinstance(filling, float) and theory.numbers(gas, filling, 0.1, 9, side)
    kinds = [it.category for it in recwarn]
    assert kinds == [theory.Correlated] * is_warned * (1 + bool(numbers))


@pytest.mark.parametrize(
    "words",
    ("--filling 0.1 --triples 0.5 --until 60", "--filling 0.4 --gas fhp-rest --chirality left"),
)
def test_responds(words):
    """A stress decays as the pair closure says, up to a fifth of its excess over Boltzmann's viscosity, and not as Boltzmann says."""
    row = printed(f"response.py --small {words}").splitlines()[-1]
    *_, above, error, pairs = numbers_of(row)
    assert abs(above - pairs) <= ERRORS * error + 0.2 * pairs, row
    assert above > ERRORS * error, row


@pytest.mark.parametrize("gas", FLUIDS)
def test_swings(gas):
    """Waves fade and move as the modes say, and never fade only at rest and in three waves at the edge of the zone."""
    words = f"modes.py --small --gas {gas}"
    are_as_in_theory(words, [f"{n} rows: {name}" for n in (8, 16) for name in ("visc", "speed")])
    pairs = re.findall(r"\((\S+), (\S+)\)", printed(words).splitlines()[-1])
    found = {tuple(map(float, pair)) for pair in pairs}
    edge, angles = 3.628, np.pi / 3 * np.arange(3)  # 2 pi / sqrt 3
    assert len(found) == 4, found
    for x, y in {(0, 0), *zip(edge * np.sin(angles), edge * np.cos(angles))}:
        is_near = (np.hypot(x - s * u, y - s * v) < 0.01 for u, v in found for s in (-1, 1))
        assert any(is_near), (x, y, found)


@pytest.mark.parametrize("gas", FLUIDS)
def test_forgets(gas):
    """Entropy rises, falls again to its start if all particles are reversed, and if one is not only on a part of the way."""
    output = printed(f"entropy.py --small --gas {gas}")
    there, back, other = np.array([*map(numbers_of, output.splitlines()[1:12])])[:, 1::2].T
    assert (there == back).all() and there[0] + 0.1 < there[-1], output
    assert other.argmin() < 10 and there[0] < other.min() < other[-1] - 0.01, output
    assert other[0] > other.min(), output


@pytest.mark.parametrize("gas, chirality", FORMULAS)
def test_is_viscous(gas, chirality):
    """The viscosity is between Boltzmann's in this channel and a little above, unlike the viscosities of the other gases."""
    row = printed(f"viscosity.py --small --gas {gas} --chirality {chirality}").splitlines()[-1]
    filling, _, measured, error, channel, published = numbers_of(row)
    assert abs(published - FORMULAS[gas, chirality](filling)) < 1e-4, published
    most = 1 + CORRELATIONS
    fits = lambda nu: nu - ERRORS * error <= measured <= nu * most + ERRORS * error
    assert fits(channel), f"{measured} +- {error}, Boltzmann's {channel}"
    others = [key for key, formula in FORMULAS.items() if fits(formula(filling))]
    assert others == [(gas, chirality)], f"{measured} +- {error} could be of {others}"


@pytest.mark.parametrize("gas", GASES)
def test_collides(gas):
    output = printed(f"collisions.py --gas {gas}")
    number, states = re.match(rf"{gas}: (\d+ of (\d+)) states collide\n", output).groups()
    assert number == COLLIDING.get(gas, number), number
    for line in (
        "tables that are those of the rules: 2 of 2",
        f"states that conserve particles and momentum: {states} of {states}",
        "momentum balanced in 100 of 100 generations",
    ):
        assert line in output, line
    sums = re.findall(r"summed (\S+) formula ([\d.]+)", output)
    assert len(sums) == 10 * (gas in FLUIDS), sums
    assert all(abs(float(one) - float(other)) < 2e-4 for one, other in sums), sums


@pytest.mark.parametrize("gas", GASES)
def test_returns(gas):
    output = printed(f"reversal.py --small --gas {gas}")
    back = [int(number) for number in re.findall(r": (\d+) cells differ", output)]
    growth = np.array([line.split() for line in output.splitlines()[4:]], int)
    assert back[0] == 0 < back[1] and growth[-1, 1] > growth[0, 1], output
    assert ((0 < growth[:, 1]) & (growth[:, 1] <= growth[:, 2])).all(), output


@pytest.mark.parametrize("gas", GASES)
def test_permutes(gas):
    """No two states of a small lattice become one, and every state keeps its number of particles, and in two generations staggered
    momenta. In HPP single rows keep more."""
    rows = [
        line.rsplit(maxsplit=7)
        for line in printed(f"permutation.py --small --gas {gas}").splitlines()[2:]
    ]
    assert len(rows) >= 2 and all(row[2] == "True" for row in rows), rows
    for name, states, _, cycles, longest, *_, once, twice in rows:
        assert int(states) // int(longest) <= int(cycles) < int(states), name
        assert int(once) >= 1 and int(twice) >= 2, name
    sums = {row[0].strip(): [*map(int, row[-2:])] for row in rows}
    assert gas not in FLUIDS or sums["2 x 1"] == [1, 4] and sums["1 x 2"] == [1, 2], sums


def test_grows():
    """The viscosity grows with the rows as the formula says, and the pair closure has its plateau."""
    output = printed("tail.py --small")
    are_near = [
        numbers_of(line.split(":")[1].replace("formula", ""))
        for line in output.splitlines()
        if "pairs at" in line
    ]
    assert abs(are_near[-1][0] - are_near[-1][1]) < 0.15 * are_near[-1][1], output
    ((_, found, error, wanted),) = LINE.findall(output)
    assert abs(float(found) - float(wanted)) <= ERRORS * float(error), output


def test_drags():
    """The force of a flow without inertia is that of the formula but for slip, and inertia adds to it."""
    output = printed("drag.py --small")
    slow, error, wanted = map(float, LINE.findall(output)[0][1:])
    assert abs(slow / wanted - 0.95) < 0.1 and error < 0.1 * wanted, output
    ((reynolds, drag),) = re.findall(r"Reynolds (\S+): C +measured +(\S+)", output)[-1:]
    assert float(drag) * float(reynolds) / 2 > 1.1 * wanted, output


def test_rows():
    """The momentum of a row spreads by the law of HPP, to which nothing is fitted, at the longest
    time within a twentieth and ever nearer. At d = 1/2 it spreads as heat."""
    output = printed("rows.py --small")
    lines = [(name, *map(float, rest)) for name, *rest in LINE.findall(output)]
    widths = [line[1:] for line in lines if line[0].endswith("width / w")]
    assert [wanted for *_, wanted in widths] == [1, 1, 1], output
    assert widths[0][0] > widths[1][0] > widths[2][0] and abs(widths[2][0] - 1) < 0.08, output
    stresses = [line[1:] for line in lines if line[0].endswith("stress left")]
    for measured, error, wanted in stresses[1:]:
        assert abs(measured - wanted) < ERRORS * error + 0.1 * wanted, output
        assert error < wanted / 2, output
    heat = np.array(re.findall(r"D (\S+) \+- (\S+)", output), float)
    assert len(heat) == 3 and abs(heat[1, 0] - heat[2, 0]) < ERRORS * np.hypot(*heat[1:, 1]), output


def test_the_function_of_rows():
    """The function's double integral is the variance of P. L. Ferrari and H. Spohn's distribution,
    Commun. Math. Phys. 265 (2006) 1, from its Fredholm determinants. Its fourth part is f'' = 4 f.
    """
    y, step = np.linspace(0, 1, 1001, retstep=True)
    inner = (1 - y) * rows_script.scaling(y)
    summed = 1.1503945 + 4 * step * (inner.sum() - inner[0] / 2)
    assert abs(summed / variance_of_heights(1.0) - 1) < 1e-4


def variance_of_heights(w):
    """Of the stationary growth at w: s^2 summed over the distribution F = H'."""
    step, end = 0.25, 9
    heights = np.array([height(s, w) for s in np.arange(-10, end + step, step)])
    slope = np.polyfit([0, 1, 2], heights[-3:], 1)[0] / step
    whole = step * (heights.sum() - heights[-1] / 2) - step**2 * slope / 12
    return end**2 * slope - 2 * end * heights[-1] + 2 * whole


def height(s, w):
    """H(s) = F_GUE(s + w^2) g(s + w^2, w), by Gauss's quadrature on both sides of 0."""
    (x, dx), (z, dz), s = half_line(16, 48), half_line(-40 / w, int(90 + 80 / w)), s + w * w
    kernel, waves = airy_kernel(x[:, None] + s, x + s), np.exp(w * z) * dz
    phi = waves @ airy_kernel(z[:, None] + s, x + s)
    psi = waves @ airy(z[:, None] + x + s)[0]
    inverse = np.linalg.solve(np.eye(len(x)) - kernel * dx, psi)
    both = waves @ (-z * airy(z + s)[0]) + (dx * phi) @ inverse
    determinant = np.linalg.det(np.eye(len(x)) - kernel * dx)
    return determinant * np.exp(w * s - w**3 / 3) * both


def half_line(end, number):
    nodes, weights = np.polynomial.legendre.leggauss(number)
    return end * (nodes + 1) / 2, abs(end) * weights / 2


def airy_kernel(a, b):
    """Airy's kernel (Ai(a) Ai'(b) - Ai'(a) Ai(b)) / (a - b)."""
    (A, slope_a), (B, slope_b), apart = airy(a)[:2], airy(b)[:2], a - b
    is_same = abs(apart) < 1e-9
    away = (A * slope_b - slope_a * B) / np.where(is_same, 1, apart)
    return np.where(is_same, slope_a**2 - a * A**2, away)


def test_remembers():
    """A tagged particle forgets at first as Boltzmann says, later less, as the tail with its amplitude, of which a third is
    missing yet at 32."""
    output = printed("tagged.py --small")
    found = {name: [*map(float, rest)] for name, *rest in LINE.findall(output)}
    for time in 1, 2:
        measured, error, wanted = found[f"C after {time} and Boltzmann"]
        assert abs(measured - wanted) < ERRORS * error < 0.1 * wanted, output
    measured, error, wanted = found["t C, mean up to 32, tail"]
    assert ERRORS * error < measured and abs(measured / wanted - 1) < 0.35, output
    measured, error, wanted = found["D up to 32 and Boltzmann"]
    assert wanted + ERRORS * error < measured < 1.1 * wanted, output


def test_keeps():
    output = printed("invariants.py --small")
    row = re.compile(r"^ +\d+ +(\S+) +(\S+)  (\(.*\))$", re.M)
    groups = [row.findall(part) for part in output.split("staggered")[1:]]
    kinds = [[len({*values}) for values in zip(*group)] for group in groups]
    assert [*map(len, groups)] == [5, 5] and all(kind[::2] == [5, 1] for kind in kinds), groups
    parts = [part.splitlines()[:5] for part in output.split("generation\n")[1:]]
    streams = [{tuple(line.split()[1:]) for line in lines} for lines in parts]
    assert [*map(len, streams)][:2] == [1, 5], streams


@pytest.mark.parametrize("gas, chirality", FORMULAS)
def test_decays_as_published(gas, chirality):
    """A long slow shear wave of the Boltzmann equation decays with the published viscosity, its particles stay, and a wind carries it with
    the Galilean factor of that wind, and not with that of a slow one."""
    length, d, wind = 256, 0.2, 0.25
    k, x = 2 * np.pi / length, np.arange(length)
    flow = boltzmann.Flow(gas, np.zeros((2, length)), chirality, has_walls=False)
    shape, wave, sizes, angles = np.sin(k * x), np.exp(-1j * k * x), [], []
    at_rest, carried = flow.at(d, 0, 0.001 * shape), flow.at(d, wind, 0.001 * shape)
    particles = flow.density(at_rest).sum()
    for _ in range(80):
        at_rest, carried = flow.step(at_rest), flow.step(carried)
        sizes.append((flow.velocity(at_rest)[1, 0] * shape).sum())
        angles.append(np.angle((flow.momentum(carried)[1, 0] * wave).sum()))
    found, wanted = np.log(sizes[39] / sizes[79]) / 40 / k**2, FORMULAS[gas, chirality](d)
    assert abs(found - wanted) < 0.02 * wanted, (found, wanted)
    assert abs(wanted - theory.viscosity(gas, d, chirality)) < 1e-9, wanted
    assert abs(flow.density(at_rest).sum() - particles) < 1e-9, particles
    factor, slow = (angles[39] - angles[79]) / 40 / k / wind, theory.galilean_factor(gas, d)
    fast = theory.galilean_factor(gas, d, wind)
    assert abs(factor - fast) < 0.02 * fast < abs(factor - slow), (factor, slow, fast)


@pytest.mark.parametrize("words", REFUSED.strip().replace("\n", " | ").split(" | "))
def test_is_refused(words):
    status, output, fault = ran(words)
    is_one = fault.count("\n") == 1 and fault.startswith(words.split()[0])
    assert status in (1, 2) and not output and is_one, (status, output, fault)


@pytest.mark.parametrize("words", ([np.zeros((3, 1)), "seeded", False], [[[0]], "up"], [[0]]))
def test_the_boltzmann_equation_is_solved_in_channels_alone(words):
    pytest.raises(Fault, boltzmann.Flow, "fhp1", *words)


def test_street(tmp_path):
    """Tells that no street is expected, and keeps the last lattice."""
    output = printed(f"street.py --small --scene {tmp_path}/street.toml")
    assert Lattice.load(tmp_path / "street.toml").generation == 1500
    assert "no vortex street is expected below Reynolds 47" in output, output
    assert "Strouhal" not in output, output


def test_finds_periods():
    """The changes of sign of a wave that is sampled every 200 generations, about a mean that is not 0."""
    wave = object.__new__(street_script.Street)
    wave.part, wave.times = 200, 20_000 + 200 * np.arange(200)
    wave.sides = 0.03 + 0.2 * np.sin(np.pi * (wave.times - 20_100) / 2_345)
    halves = np.diff(wave.crossings())
    assert len(halves) == 16 and abs(halves.mean() - 2345) < 5, halves


def test_takes_arrays():
    """Theory of an array is an array of the theory of its numbers."""
    for name, gas, *more in (
        ("viscosity", "fhp-rest", "left"),
        ("odd_viscosity", "fhp1", "right"),
        ("slip", "fhp1"),
        ("bulk_viscosity", "fhp-rest"),
        ("noise", "hpp", 9),
        ("galilean_factor", "fhp1", 0.2),
        ("galilean_factor", "fhp-rest"),
    ):
        of = lambda d: getattr(theory, name)(gas, d, *more)
        found, wanted = of(np.array([[0.1, 0.3], [0.5, 0.7]])), [*map(of, (0.1, 0.3, 0.5, 0.7))]
        is_so = np.allclose(found, np.reshape(wanted, (2, 2)), rtol=1e-12)
        assert is_so, (name, gas, found, wanted)

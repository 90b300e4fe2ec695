"""Checks each formula of docs/DERIVATION.md, as it is printed there, against the Boltzmann equation
of the package, for several fillings, and the slip and the viscosity at a wave number against the
modes of a generation."""

from math import comb

import needs
import pytest

needs.libraries()
import numpy as np  # noqa: E402
from fhpgas import Fault, boltzmann, equilibrium, gas_named, theory  # noqa: E402
from fhpgas.gases import DRIVES  # noqa: E402

pytestmark = pytest.mark.filterwarnings("ignore::fhpgas.theory.Correlated")
GAS, FORCE = gas_named("fhp1"), 1e-8
X, Y = GAS.velocities.T
FILLINGS = 0.05, 0.1, 0.3, 0.5, 0.7
STAGGERED = np.array([1, -1, 1, -1, 1, -1])
SEEDED = ("fhp1", 0.3, "seeded"), ("fhp1", 0.1, "seeded"), ("fhp-rest", 0.2, "seeded")
GASES = *SEEDED, ("fhp1", 0.3, "left")
REFUSED = [
    *(
        (boltzmann.pair_closure, "fhp1", *words)
        for words in ((1, X), (0.1, X[:5]), (0.1, [1j] * 6))
    ),
    (boltzmann.pair_closure, "fhp1", 0.1, X, "up"),
    (boltzmann.pair_closure, "fhp1", 0.1, X, "left", 2),
    (boltzmann.pair_closure, "fhp1", 0.1, X, "left", 1, 1),
    (theory.pair_viscosity, "hpp", 0.1, 9),
    (theory.pair_viscosity, "fhp1", 0.1, -1),
    *((theory.running_viscosity, stress) for stress in ([], [0, 1], ["a"], 1)),
]


def share(d):
    return 3 * d * (1 - d) ** 3


def staggered_share(d):
    return 6 * d**2 * (1 - d) ** 2


def viscosity(d):
    return (1 / share(d) - 1 / 2) / 4


def is_close(found, wanted, within=1e-9):
    difference = np.max(abs(np.asarray(found) - wanted))
    assert difference <= within * max(1, np.max(abs(np.asarray(wanted)))), (found, wanted)


def factors_of(gas, d, wave, side="seeded"):
    """What the modes of a wave vector keep in a generation, the slowest first."""
    factors = np.linalg.eigvals(boltzmann.generation_matrix(gas, d, wave, side))
    return factors[np.argsort(abs(factors - 1))]


def slowest(factors):
    """The largest real factor."""
    return max(factors[abs(factors.imag) < 1e-9].real)


def staggered_of(number):
    return np.where(np.arange(number) < 6, (-1.0) ** np.arange(number), 0)


def test_sums():
    """The sums over the directions at the top of the page."""
    is_close([(X**2).sum(), (Y**2).sum(), X @ Y, (X**2) @ Y**2], [3, 3, 0, 3 / 4])


@pytest.mark.parametrize("d", FILLINGS)
def test_shares(d):
    """2. What a collision undoes: shear, staggered, chiral, and what is conserved."""
    collide = lambda n, side="seeded": boltzmann.collision_matrix("fhp1", d, side) @ n
    shear, rotated = np.array([1, -1 / 2, -1 / 2] * 2), np.exp(2j * np.pi / 3 * np.arange(6))
    is_close(collide(shear), -share(d) * shear)
    is_close(collide(STAGGERED), -staggered_share(d) * STAGGERED)
    is_close(collide(rotated, "left"), -d * (1 - d) ** 3 * (3 + 1j * 3**0.5) * rotated)
    for conserved in np.ones(6), X, Y:
        is_close(collide(conserved), 0)
    left = 1 - np.array([0, 0, 0, share(d), share(d), staggered_share(d)])
    is_close(np.sort(factors_of("fhp1", d, (0, 0)).real), np.sort(left), 1e-7)


@pytest.mark.parametrize("d", FILLINGS)
def test_sound(d):
    """3. The speed of the waves that move, at a small wave number."""
    for gas, square in ("fhp1", 1 / 2), ("fhp-rest", 3 / 7):
        angles = np.sort(np.angle(factors_of(gas, d, (1e-4, 0))[:3]))
        is_close(angles / 1e-4, np.array([-1, 0, 1]) * square**0.5, 1e-5)


@pytest.mark.parametrize("d", FILLINGS)
def test_shear(d):
    """4. The state of a uniform shear comes back after a generation, and its flux of momentum is that of the viscosity."""
    collide = np.eye(6) + boltzmann.collision_matrix("fhp1", d)
    state = lambda y: 2 * d * y * X - 2 * d / share(d) * X * Y
    is_close([(collide @ state(1 - y))[i] for i, y in enumerate(Y)], state(1))
    crossing = [(collide @ state(-y / 2))[i] for i, y in enumerate(Y)]
    is_close(-(X * Y) @ crossing / (6 * d), viscosity(d))
    is_close(1 / (12 * d * (1 - d) ** 3) - 1 / 8, viscosity(d))
    is_close(theory.viscosity("fhp1", d), viscosity(d))
    left = (1 / (d * (1 - d) ** 3 * (3 + 1j * 3**0.5)) - 1 / 2) / 4
    is_close(left.real, 1 / (16 * d * (1 - d) ** 3) - 1 / 8)
    is_close(left.imag, -(3**0.5) / (48 * d * (1 - d) ** 3))
    is_close(left.real, theory.viscosity("fhp1", d, "left"))
    is_close(left.imag, theory.odd_viscosity("fhp1", d, "left"))


@pytest.mark.parametrize("d", FILLINGS)
def test_noise(d):
    """5. The sum of Green and Kubo over the correlation that the collisions leave."""
    stress, generation = X * Y, np.eye(6) + boltzmann.collision_matrix("fhp1", d)
    left, correlations = d * (1 - d) * stress, []
    for t in range(4000):
        correlations.append(stress @ left)
        left = generation @ left
    is_close(correlations[:3], 3 / 4 * d * (1 - d) * (1 - share(d)) ** np.arange(3))
    chi = d * (1 - d) * (X**2).sum()
    is_close((sum(correlations) - correlations[0] / 2) / chi, viscosity(d), 1e-6)
    is_close(theory.running_viscosity(correlations)[-1], viscosity(d), 1e-6)


@pytest.mark.parametrize("d", FILLINGS)
def test_factor(d):
    """6. The flux xy of a slow wind at equilibrium, and the second order that carries it."""
    u, g = np.array([0.002, 0.001]), (1 - 2 * d) / (2 * (1 - d))
    chances = equilibrium("fhp1", d, *u)
    second = 2 * d * (1 - 2 * d) / (1 - d) * ((X * u[0] + Y * u[1]) ** 2 - u @ u / 2)
    is_close(chances, d + 2 * d * (X * u[0] + Y * u[1]) + second, 1e-7)
    is_close(X * Y @ chances / (6 * d * u[0] * u[1]), g, 1e-3)
    is_close(theory.galilean_factor("fhp1", d), g)


@pytest.mark.parametrize("d", FILLINGS[:4])
def test_at_a_wave_number(d):
    """A weak shear wave decays by the factor of its mode, with walls and without, and in a long wave with the viscosity."""
    rows, size = 64, 1e-6
    k = np.pi / rows / GAS.row_distance
    wanted = slowest(factors_of("fhp1", d, (0, k)))
    for height, has_walls in (rows, True), (2 * rows, False):
        wave = size * np.sin(np.pi * (np.arange(height)[:, None] + 1 / 2) / rows)
        flow = boltzmann.Flow("fhp1", np.zeros((height, 1)), has_walls=has_walls)
        *_, before, after = flow.every(flow.at(d, wave), 1, 1000)
        left = [(flow.momentum(chances)[0] * wave).sum() for chances in (before, after)]
        is_close(left[1] / left[0], wanted, 1e-5)
    slow = slowest(factors_of("fhp1", d, (0, 1e-4))[:3])
    is_close(-np.log(slow) / 1e-8, viscosity(d), 1e-4)


@pytest.mark.parametrize("gas", ("fhp1", "fhp-rest"))
def test_at_the_edge(gas):
    """Three waves at the edge of the zone of wave vectors never fade: the staggered momenta, one per axis."""
    for angle in np.pi / 6 + np.pi / 3 * np.arange(3):
        wave = 2 * np.pi / 3**0.5 * np.array([np.cos(angle), np.sin(angle)])
        factors = factors_of(gas, 0.3, wave)
        is_close(np.sort(abs(factors + 1))[0], 0)
        assert np.sort(abs(factors))[-2] < 1 - 1e-3, factors


@pytest.mark.parametrize("along", DRIVES)
@pytest.mark.parametrize("gas, d, side", GASES)
def test_slip(gas, d, side, along):
    """7. The stationary flow under a weak force: the staggered sum, the parabola, its place at the wall, with the shares of the modes."""
    rows, flow = 10, boltzmann.Flow(gas, np.zeros((10, 1)), side)
    x, mass = flow.gas.velocities[:, 0], flow.gas.directions * d
    staggered, kappa = staggered_of(len(x)), along == "rows"
    kick = FORCE * (np.isin(np.arange(len(x)), (0, 3)) * x / 2 if kappa else x / 3)[:, None, None]
    matrix = boltzmann.collision_matrix(gas, d, side)
    m, nu = -(matrix @ staggered)[0], theory.viscosity(gas, d, side)
    K = -1 / 4 + 8 * nu / 3 * ((2 + kappa * (1 - m)) / m - 1)
    before = flow.at(d)
    for _ in range(int(60 * (rows**2 / 4 + K) / nu / np.pi**2)):
        before = flow.step(before + kick)
    is_close(np.tensordot(staggered, before, 1) / FORCE, (2 + kappa * (1 - m)) / m, 1e-3)
    speed = ((before + kick / 2) * x[:, None, None]).sum(0)[:, 0] / mass
    places = (rows - 1) / 2 - np.arange(rows)
    bend, middle = np.polyfit(places**2, speed, 1)
    assert abs(speed - bend * places**2 - middle).max() < 1e-4 * middle, "no parabola"
    is_close(-middle / bend - rows**2 / 4, K, 1e-3)
    if side == "seeded":
        B, h = 1 / (8 * nu), (rows - 1) / 2
        A = (B * (h**2 + (h + 1) ** 2 - 1) - 1) / 2
        is_close((before[[1, 5], :, 0].sum(0) - 2 * d) / FORCE, A - B * places**2, 1e-3)
    is_close(-FORCE * flow.gas.row_distance**2 / 2 / bend / mass, nu, 1e-3)
    crossed = 4 / 3 * (4 * nu * (1 / m - 1 / 2) - 3 / 16)
    wanted = 8 * nu * (1 / m - 2 / 3) - 1 / 4 if kappa else crossed
    is_close(K, wanted)
    is_close(theory.slip(gas, d, side, along), K)


@pytest.mark.parametrize("gas, d, side", (*GASES, ("fhp-rest", 0.5, "seeded")))
def test_short_waves(gas, d, side):
    """8. What a shear wave loses of its viscosity because the particles along it wait for triples,
    against a gas in which these undo the staggered sum at once. The modes along a ray."""
    velocities, nu = gas_named(gas).velocities, theory.viscosity(gas, d, side)
    number, k = len(velocities), np.pi / 512 / GAS.row_distance
    staggered = staggered_of(number)
    collide = np.eye(number) + boltzmann.collision_matrix(gas, d, side)
    m, found = 1 - (collide @ staggered)[0], []
    for left in 0, m - 1:
        mixed = collide + left * np.outer(staggered, staggered) / 6
        factors = np.linalg.eigvals(np.exp(-1j * k * velocities[:, 1])[:, None] * mixed)
        found.append(-np.log(slowest(factors[np.argsort(abs(factors - 1))[:3]])) / k**2)
    is_close((found[0] - found[1]) / (-2 * nu**2 * k**2 * (1 / m - 1)), 1, 0.01)


def test_rays():
    """8. The rates of the modes of a short wave along a ray, in a gas that seldom collides."""
    d, waves = 0.002, (0, 2 * np.pi / 3 / Y[1])
    rates = -np.log(abs(factors_of("fhp1", d, waves)))
    lam, m = share(d), staggered_share(d)
    wanted = m / 3, lam / 6, lam / 6, lam / 2 + m / 3, lam / 2 + m / 3, 2 * lam / 3
    is_close(np.sort(rates) / wanted, 1, 0.02)
    is_close(share(0.2) / 6, staggered_share(0.2) / 3)


def seen_after(changes, d):
    """9. What the correlations of the pairs in a cell, [6, 6], add to a chance of E: the states in
    which a head-on pair collides, each with its factor."""
    weights = np.zeros(3)
    for axis in range(3):
        is_on = np.arange(6) % 3 == axis
        pairs = (is_on, is_on, 2), (is_on, ~is_on, 1), (~is_on, ~is_on, 2)
        both, one, none = (changes[a][:, b].sum() / times for a, b, times in pairs)
        weights[axis] = (1 - d) ** 4 * both - d * (1 - d) ** 3 * one + d**2 * (1 - d) ** 2 * none
    return -weights[0] + (weights[1] + weights[2]) / 2


@pytest.mark.parametrize("d", FILLINGS)
def test_pairs(d):
    """9. The correlations that the first collision makes, Boltzmann's two generations, and the
    third, in which pairs meet again. What is conserved makes no pairs."""
    shear, angle = np.array([1, -1 / 2, -1 / 2] * 2), np.pi / 3 * np.arange(6)
    closure, (i, j) = boltzmann.pair_closure("fhp1", d, shear), np.indices((6, 6))
    found = [next(closure) for _ in range(4)]
    is_opposite = (i - j) % 6 == 3
    made = np.where(is_opposite, -(1 - 2 * d) * shear[i], d * (shear[i] + shear[j])) * share(d)
    np.fill_diagonal(made, 0)
    steps = np.array([(0, 1), (1, 0), (1, -1), (0, -1), (-1, 0), (-1, 1)])
    apart = steps[j] - steps[i]
    is_close(found[1][1][i, j, apart[..., 0], apart[..., 1]], made)
    is_close(abs(found[1][1]).sum(), abs(made).sum())
    is_close(found[1][0], (1 - share(d)) * shear)
    is_close(found[2][0], (1 - share(d)) ** 2 * shear)
    apart = angle[:, None] - angle
    left = np.eye(6) - share(d) / 3 * np.cos(2 * apart) - staggered_share(d) / 6 * np.cos(3 * apart)
    again = np.zeros((6, 6))
    for a, b, k, l in np.ndindex(6, 6, 6, 6):
        if k != l and not (steps[a] + steps[k] - steps[b] - steps[l]).any():
            again[k, l] += left[k, a] * left[l, b] * made[a, b]
    is_close(found[3][0][0], (1 - share(d)) ** 3 + seen_after(again, d))
    for conserved in np.ones(6), X, Y:
        closure = boltzmann.pair_closure("fhp1", d, conserved, "left", 0.5, 8)
        *_, (chances, correlated) = (next(closure) for _ in range(9))
        is_close(chances, conserved)
        is_close(correlated, 0)


@pytest.mark.parametrize("d", (0.002, 0.01, 0.05))
def test_lines(d):
    """9. The difference of the two directions of a line fades and spreads, on both checkerboards,
    holds more of both directions, and the law of C(t), which the pair closure has and `fhp-rest`
    has not."""
    lam, m = share(d), staggered_share(d)
    spread, k = 3 / (2 * lam) - 1 / 2, 0.05 * lam
    waves = np.array([(edge + k, q) for edge in (0, np.pi) for q in (1.0, 2.0, 2.9)])
    factors = np.linalg.eigvals(boltzmann.generation_matrix("fhp1", d, waves, "seeded"))
    sign = np.repeat([1, -1], 3)[:, None]
    rates = -np.log(abs(np.take_along_axis(factors, abs(factors - sign).argmin(1)[:, None], 1)))
    is_close(rates / (m / 3 + spread * k**2), 1, 5 * lam)
    h, a = np.log(1 / d - 1), 1e-3
    east, west = 1 / (1 + np.exp(h - a)), 1 / (1 + np.exp(h + a))
    more = (1 - 2 * d) / (4 * d * (1 - d))
    is_close((east + west - 2 * d) / (east - west) ** 2 / more, 1, 1e-4)
    chances = np.full((6, 1, 1), d)
    chances[[0, 3], 0, 0] = east, west
    flow = boltzmann.Flow("fhp1", np.zeros((2, 1)), has_walls=False)
    change = (flow.collided(chances) - chances).ravel()
    is_close(change[:3] + change[3:], 0, 1e-15)
    times, steps = np.array([40, 60]), np.linspace(0, 2000, 400_001)[1:]
    most = 8 * d * (1 - d) * more**2
    law = lambda t: most * np.exp(-2 * m * t / 3) / np.sqrt(8 * np.pi * spread * t)
    whole = (1 - 2 * d) ** 2 / (8 * d * (1 - d)) * np.sqrt(3 / (16 * spread * m))
    roots = 2 * steps * (steps[1] - steps[0])  # t = steps^2, without the root at 0
    is_close((law(steps**2) * roots).sum() / 4 / whole, 1, 1e-3)
    if d == 0.05:
        found = [
            4 * np.diff(theory.pair_viscosity(gas, d, 60, size=128)) for gas in ("fhp1", "fhp-rest")
        ]
        is_close(found[0][times - 1] / law(times), 1, 0.15)
        is_close(found[1][times - 1] / law(times), 0, 0.1)


@pytest.mark.parametrize("call, words", [(it[0], it[1:]) for it in REFUSED])
def test_refuses(call, words):
    """9. What is no filling, start, side, chance, size, number of generations or stress."""
    pytest.raises(Fault, call, *words)


def spread(gas, d, side):
    """How a staggered momentum of the rows spreads along them and across: rate / k^2 near its wave vector."""
    k, edge = 2e-4, np.array([0, np.pi / GAS.row_distance])
    waves = edge + k * np.eye(2)
    factors = np.linalg.eigvals(boltzmann.generation_matrix(gas, d, waves, side))
    slowest = factors[[0, 1], abs(factors + 1).argmin(-1)]
    return -np.log(-slowest).real / k**2


def grown(gas, d, side):
    """By how much the viscosity grows with the logarithm of time, by momenta and by staggered momenta."""
    nu, more = theory.viscosity(gas, d, side), theory.bulk_viscosity(gas, d)
    both = np.array([1 / nu + 1 / (nu + more), 3 / np.sqrt(spread(gas, d, side).prod())])
    return 3**0.5 * (1 - 2 * d) ** 2 / (3072 * np.pi * d * (1 - d)) * both


@pytest.mark.parametrize("gas, d, side", (*GASES[:2], GASES[3], ("fhp-rest", 0.15, "seeded")))
def test_tail(gas, d, side):
    """10. The spread of staggered momenta, exact in FHP-I, and the growth of the viscosity, which
    the pair closure, that knows no modes, has too."""
    if gas == "fhp1":
        is_close(spread(gas, d, side) / theory.viscosity(gas, d, side), [1, 9], 1e-4)
        return
    found = theory.pair_viscosity(gas, d, 64, side, size=112)
    growth, (momenta, staggered) = (found[64] - found[40]) / np.log(64 / 40), grown(gas, d, side)
    assert abs(growth - momenta - staggered) < 0.1 * growth < growth - momenta, growth


@pytest.mark.parametrize("d", (0.1, 0.2, 0.3))
def test_rows(d):
    """11. What collisions of HPP balance, the flux of a row's momentum, the scale of the law, the
    stress from its spread, the damping of sound from that, and the lines of thin FHP-I."""
    h, q = np.log(1 / d - 1), 1e-3
    east, west = 1 / (1 + np.exp(h - q)), 1 / (1 + np.exp(h + q))
    flow = boltzmann.Flow("hpp", np.zeros((2, 1)), has_walls=False)
    chances = np.resize([east, d, west, d], (2, 4)).T[..., None]
    is_close(flow.collided(chances), chances, 1e-15)
    more, G = (1 - 2 * d) / (4 * d * (1 - d)), (1 - 2 * d) / (2 * d * (1 - d))
    is_close((east + west - 2 * d) / (east - west) ** 2 / more, 1, 1e-4)
    is_close(G * ((east - west) / 2) ** 2, more * (east - west) ** 2 / 2)
    L = 2**0.5 * (1 - 2 * d) / np.sqrt(d * (1 - d))
    is_close(2 * 2**0.5 * G * np.sqrt(d * (1 - d)), L)
    spread = lambda t: 2 * d * (1 - d) * 0.5105 * (L * t) ** (4 / 3)
    t = 500.0
    flux = (spread(t + 1) - 2 * spread(t) + spread(t - 1)) / 2
    left = lambda t: 2 / 9 * 0.5105 * L ** (4 / 3) * t ** (-2 / 3)
    is_close(2 * flux / (4 * d * (1 - d)) / left(t), 1, 1e-5)
    w, roots = 0.01, (np.arange(400_000) + 1 / 2) / 2000  # t = root^3: no pole at 0
    waves = np.exp((1j - 0.05) * w * roots**3)  # fades, and Gamma(1/3) (fading - i)^(-1/3)
    summed = (left(roots**3) * waves * 3 * roots**2).sum() / 2000 / 4
    wanted = 0.0284 * L ** (4 / 3) * 2.6789385 * w ** (-1 / 3) * (0.05 - 1j) ** (-1 / 3)
    is_close(summed / wanted, 1, 2e-3)
    is_close(np.angle((-1j) ** (-1 / 3)), np.pi / 6)


def test_thin_lines():
    """9. The mean D of lines at d = 0.02, and the viscosity of a thin gas by the law of rows."""
    L = lambda d: 2**0.5 * (1 - 2 * d) / np.sqrt(d * (1 - d))
    mean = 0.2553 * L(0.02) ** (4 / 3) * np.array([162, 325, 650]) ** (1 / 3)
    is_close(mean, [28.8, 36.3, 45.7], 2e-3)
    for d in 1e-7, 1e-8:
        root, step = np.linspace(0, (20 / staggered_share(d)) ** (1 / 3), 200_001, retstep=True)
        t = root**3
        more = 4 / 9 * 0.2553 * L(d) ** (4 / 3) * np.exp(-2 * staggered_share(d) * t / 3)
        is_close((3 * more).sum() * step / 4 / (0.076 * d ** (-4 / 3)), 1, 3e-3)
    d = 0.0048
    is_close(0.076 * d ** (-4 / 3) / (3 / (8 * np.sqrt(d)) / (12 * d)), 1, 0.01)


@pytest.mark.parametrize("gas", ("fhp1", "fhp-rest"))
@pytest.mark.parametrize("d", FILLINGS)
def test_tagged(gas, d):
    """10. The share of its velocity that a particle keeps in a collision, over all states."""
    named, states = gas_named(gas), np.arange(1 << gas_named(gas).directions)
    bits, b = named.bits[states].astype(float), named.directions
    chances = np.where(bits, d, 1 - d).prod(1) * bits[:, 0] / d
    velocity = bits @ named.velocities[:, 0] / np.maximum(1, bits.sum(1))
    others = np.arange(b)
    shares = np.array([comb(b - 1, m) * d**m * (1 - d) ** (b - 1 - m) for m in others])
    kappa = shares @ ((1 - others / (b - 1)) / (others + 1))
    is_close(chances @ velocity, kappa)
    is_close(chances @ bits @ named.velocities[:, 0], 1 - d)

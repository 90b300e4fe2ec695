#!/usr/bin/env python3
"""Green and Kubo: the viscosity of a gas at rest from the noise of its stress, and sound from the
noise of its density.

C(t) is the sum over places of <s(0, 0) s(r, t)>, s the flux xy of momentum, over the cells that
particles reach in t. The viscosity up to `--lags` is (C(0) / 2 + C(1) + C(2) + ..) / (3 d (1 - d)).
In Boltzmann's equation C falls as (1 - lambda)^t. "With pairs": the pair closure. The waves of the
density between the walls swing in the noise too: speed and damping are fitted to their correlation
over time."""
import common
import fhpgas
import numpy as np
from fhpgas import boltzmann, theory
from scipy.fft import fft, ifft, irfft2, rfft2
from scipy.optimize import curve_fit
from scipy.signal import welch
from sound import swing

SIDE, BLOCK, WAVES = 256, 8, np.arange(8, 20)  # columns and rows, of blocks, half waves across
K = np.pi * WAVES / SIDE / (3**0.5 / 2)


def measured(asked, seed):
    """The correlations of the stress [lag], and the amplitudes of the density's waves [time,
    wave]."""
    gas = fhpgas.draw_gas(asked.filling, size=fhpgas.Size(SIDE, SIDE), gas=asked.gas, seed=seed)
    shapes = np.cos(np.pi * np.outer(np.arange(SIDE) + 0.5, WAVES) / SIDE)
    amplitudes, past, products, correlations = [], [], 0, []
    for lattice in gas.every(1, asked.generations):
        numbers = lattice.counts(BLOCK, BLOCK)
        amplitudes.append(lattice.counts(SIDE, 1).sum((0, 2)) @ shapes)
        past = [rfft2(fhpgas.flux(asked.gas, numbers)[0, 1]), *past[: asked.lags]]
        if len(past) > asked.lags:
            products = products + past[0] * np.conj(past)
    samples = (asked.generations + 1 - asked.lags) * gas.fluid
    for lag, each in enumerate(irfft2(products, s=numbers.shape[1:]) / samples):
        far = 2 + lag // BLOCK  # blocks
        near = np.roll(each, (far, far), (0, 1))[: 2 * far + 1, : 2 * far + 1]
        correlations.append(near.sum())
    return correlations, np.array(amplitudes)


def sound(amplitudes, modes):
    """The speeds and the dampings [2, wave], from a fit to the correlations until theory expects
    exp(-1.5)."""
    found, number = [], len(amplitudes)
    for series, mode in zip(amplitudes.T, modes):
        lags = np.arange(min(number // 4, int(1.5 / mode.real)))
        correlation = ifft(abs(fft(series, 2 * number)) ** 2).real[lags] / (number - lags)
        first = mode.imag, mode.real, 1, 0
        found.append(curve_fit(swing, lags, correlation / correlation[0], first)[0][:2])
    return np.transpose(found) / (K, K**2)


def draw(path, asked, runs, kept, pairs, matrix):
    (mean, error), lags = fhpgas.mean_and_error([run[0] for run in runs]), np.arange(asked.lags + 1)
    frequencies, powers = welch([run[1][:, 0] for run in runs], nperseg=512, axis=1)
    w, (power, spread) = 2 * np.pi * frequencies[1:], fhpgas.mean_and_error(powers[:, 1:])
    steps = np.linalg.inv(np.eye(len(matrix)) - np.exp(1j * w)[:, None, None] * matrix)
    lines = steps.real.sum((1, 2)) - len(matrix) / 2
    with common.axes(path, 1, 2, (5, 3.8)) as (left, right):
        left.errorbar(lags, mean / mean[0], error / mean[0], fmt="C0.", label="measured")
        left.plot(lags, kept**lags, "C1", lw=1, label="Boltzmann")
        left.plot(lags[1:], 4 * np.diff(pairs), "C2", lw=1, label="with pairs")
        left.set(xlabel="generations", ylabel="C(t) / C(0)", yscale="log", ylim=(3e-4, 1.2))
        left.set_title(f"{asked.gas}, d = {asked.filling}, {SIDE}² cells, {asked.seeds} seeds")
        right.errorbar(w, *(power, spread) / power.mean(), fmt="C0.", label="measured")
        right.semilogy(w, lines / lines.mean(), "C1", lw=1, label="Boltzmann")
        right.set(xlabel="frequency", ylabel="noise of density", xlim=(0, 0.4), ylim=(1e-3, 300))
        left.legend(), right.legend()


@common.experiment
def main():
    figure = "the correlation of the stress, and the spectrum of a wave of the density"
    reader = common.Options(figure, common.FLUIDS, seeds=(8, 4))
    reader.filling(0.05, 0.6, 0.3)
    reader.option("--generations", common.whole(500, 1_000_000), 1000, 600, "in all")
    reader.option("--lags", common.whole(20, 100), 30, 20, "generations in the sum")
    asked = reader.parse_args()
    nu = theory.viscosity(asked.gas, asked.filling)
    kept, vectors = 1 - 1 / (4 * nu + 1 / 2), np.stack((0 * K, K), 1)
    matrices = boltzmann.generation_matrix(asked.gas, asked.filling, vectors)
    modes = -np.log([max(f[f.imag < -1e-9], key=abs) for f in np.linalg.eigvals(matrices)])
    runs = common.runs(lambda seed: measured(asked, seed), asked)
    for lag in 1, 5, 20:
        shares = [correlations[lag] / correlations[0] for correlations, _ in runs]
        common.compare(f"stress after {lag}", shares, kept**lag, 4)
    sums = np.array([np.sum(run[0]) - run[0][0] / 2 for run in runs])
    boltzmanns = theory.running_viscosity(kept ** np.arange(asked.lags + 1))[-1]
    pairs = theory.pair_viscosity(asked.gas, asked.filling, asked.lags, size=2 * asked.lags)
    name = f"viscosity up to {asked.lags}"
    common.compare(name, sums / (3 * asked.filling * (1 - asked.filling)), boltzmanns)
    print(f"{'':34} with pairs {pairs[-1]:17.3f}")
    speeds, dampings = np.moveaxis([sound(run[1], modes) for run in runs], 1, 0).mean(-1)
    common.compare("speed of sound", speeds, np.mean(modes.imag / K), 4)
    common.compare("damping D", dampings, np.mean(modes.real / K**2))
    if asked.picture:
        draw(asked.picture, asked, runs, kept, pairs, matrices[0])

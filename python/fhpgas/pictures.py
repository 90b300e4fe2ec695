"""Pictures by matplotlib: fields of blocks in colours, small lattices as arrows, strips of several
states, and films.

Lengths are in cells' widths, so 512 rows of a triangular lattice are 443 high. Solid cells and
blocks without a value are grey. Fields with a sign are blue below 0 and red above it, the others
run from dark to light. Colour-blind readers can tell both apart."""
from __future__ import annotations

import contextlib
import io
import os
import pathlib
import reprlib
import shutil
import subprocess
import tempfile
from collections.abc import Iterable, Iterator
from typing import TYPE_CHECKING, Any, NamedTuple, TypeAlias

import numpy as np

from .arrays import Array
from .blocks import Blocks
from .fault import Fault, integer, library, real
from .fields import positions, pair_checked
from .files import Path, of_file, write_whole
from .lattice import Lattice
from .limits import FFMPEG, PILLOW, Quantity
from .planes import block_ones, packed

if TYPE_CHECKING:
    from matplotlib.axes import Axes
    from matplotlib.figure import Figure

Source: TypeAlias = Lattice | Blocks

__all__ = ["film", "plot", "strip"]
SMALL, MOST = 2_000, 20_000  # cells of a lattice that shows its particles unasked, and that can
FINEST = 1024  # pixels of the solid cells each way
PLAIN, SIGNED, VELOCITY = "viridis", "RdBu_r", "cells per generation"
FIELDS = {  # of blocks, with the unit and the colours
    "speed": (VELOCITY, PLAIN),
    "east": (VELOCITY, SIGNED),
    "north": (VELOCITY, SIGNED),
    "vorticity": ("1 per generation", SIGNED),
    "density": ("particles per cell", PLAIN),
    "filling": ("particles per direction", PLAIN),
    "pressure": ("per cell", PLAIN),
}
PALE, GREY, INK = "0.88", "0.55", "#1f4e79"
IN_CELLS = {"angles": "xy", "scale_units": "xy", "units": "xy", "scale": 1, "minlength": 0}
ARROW = {"width": 0.06, "headwidth": 3, "headlength": 3.5, "headaxislength": 3}


class Shown(NamedTuple):
    """Blocks, values [row, column] of them, masked where less than half of a block is fluid, and
    `solid_of` the lattice if that is known. Or a lattice whose particles are shown."""

    source: Any
    values: Any = None
    solid: Any = None


def chosen(source: Source, what: Any, block: tuple[int, int], smooth: float) -> tuple[Any, Shown]:
    """What a picture shows if `what` is asked for: an array, the name of a field, or "particles",
    with its values."""
    if not isinstance(source, (Lattice, Blocks)):
        raise Fault(f"a picture is one of a Lattice or of Blocks, not of {reprlib.repr(source)}")
    cells = source.states.size if isinstance(source, Lattice) else MOST + 1
    if what is None:
        what = "particles" if cells <= SMALL else "speed"
    can = [*FIELDS, *["particles"] * (cells <= MOST)]
    if isinstance(what, str) and what not in can:
        raise Fault(f"there is no picture of {what!r} of {source!r}: {', '.join(can)}")
    if isinstance(what, str) and what == "particles":
        return what, Shown(source)
    sides = pair_checked(block, "a block")
    blocks = source if isinstance(source, Blocks) else source.blocks(*sides)
    smoothed = blocks.smooth(smooth) if smooth else blocks
    values = getattr(smoothed, what) if isinstance(what, str) else np.ma.asarray(what)
    if values.shape != blocks.fluid.shape or values.dtype.kind not in "biuf":
        found = f"{values.dtype} of shape {values.shape}"
        wanted = f"numbers [row, column] of {blocks.fluid.shape} blocks"
        raise Fault(f"what is shown are {wanted}, not {found}")
    values = np.ma.masked_where(2 * blocks.fluid < blocks.cells, np.ma.masked_invalid(values))
    return what, Shown(blocks, values, solid_of(source))


def prepared(
    sources: Iterable[Source], what: Any, block: Any, smooth: float, options: dict[str, Any]
) -> tuple[str | None, list[Shown], dict[str, Any]]:
    """The label of the colours (particles have None), what is shown, and the options of the images:
    all have one range of values, which is symmetric about 0 if the field has a sign."""
    many = list[Shown]()
    if not isinstance(sources, Iterable):
        found = f"[lattice, ..] or lattice.every(..), not {reprlib.repr(sources)}"
        raise Fault(f"a film or a strip has several states, {found}")
    for source in sources:
        what, shown = chosen(source, what, block, smooth)
        if many and np.array_equal(shown.solid, many[-1].solid):
            shown = shown._replace(solid=many[-1].solid)
        many.append(shown)
        if shown.source.size != (first := many[0].source.size):
            found = f"{first} and of {shown.source.size} cells"
            raise Fault(f"a film or a strip has states of one size, and these are of {found}")
    if not many:
        raise Fault("a picture has a state or more")
    if many[0].values is None:
        return None, many, {}
    unit, name = FIELDS[what] if isinstance(what, str) else ("", PLAIN)
    known = np.concatenate([shown.values.compressed() for shown in many])
    least, most = (float(known.min()), float(known.max())) if known.size else (0.0, 1.0)
    if name == SIGNED:
        least, most = min(least, -most), max(most, -least)
    limits = {} if "norm" in options else {"vmin": least, "vmax": most}
    shades = library("matplotlib").colormaps.get_cmap(options.get("cmap", name))
    options = (
        {"interpolation": "nearest"} | limits | options | {"cmap": shades.with_extremes(bad=GREY)}
    )
    return f"{what}\n({unit})" if unit else "", many, options


def solid_of(source: Source) -> Any:
    """The solid cells of a lattice as an image [y, x] that is masked elsewhere, with at most FINEST
    pixels each way, or None if no cell is solid. Of a larger lattice a pixel is a square of cells,
    at least half of which are solid."""
    solid = getattr(source, "solid", None)
    if solid is None or not solid.any():
        return None
    side = -(-max(solid.shape) // FINEST)
    (number,) = block_ones(packed(solid.view(np.uint8), 1), solid.shape[1], side, side)
    grey = np.full(number.shape, 255 * float(GREY), np.uint8)
    return np.ma.masked_array(grey, 2 * number < side**2)


def draw(shown: Shown, ax: Axes, options: dict[str, Any]) -> Any:
    """A field as an image on Axes in cells' widths, with the solid cells over it, or the particles
    of a lattice."""
    if shown.values is None:
        return particles(shown.source, ax)
    blocks = shown.source
    x, y = blocks.edges

    def shown_as(values: Any, width: int, height: int, **options: Any) -> Any:
        """An image of blocks of this size, as if the last ones were not smaller."""
        rows, columns = values.shape
        below = y[0] - rows * height * blocks.gas.row_distance
        return ax.imshow(values, extent=(x[0], x[0] + columns * width, below, y[0]), **options)

    image = shown_as(shown.values, *blocks.block, **options)
    if shown.solid is not None:
        side = -(-max(blocks.size) // FINEST)
        shown_as(shown.solid, side, side, cmap="gray", vmin=0, vmax=255)
    ax.set(xlim=(x[0], x[-1]), ylim=(y[-1], y[0]), xlabel="x (cells)", ylabel="y (cells)")
    return image


def particles(lattice: Lattice, ax: Axes) -> Axes:
    """Moving particles as arrows, particles at rest as dots, solid cells grey, and the walls as
    lines."""
    made = library("matplotlib.collections")

    gas, (X, Y) = lattice.gas, np.broadcast_arrays(*positions(lattice.size, lattice.gas))
    corners = 4 if gas.is_square else 6
    corner = np.exp(2j * np.pi * (np.arange(corners) + 0.5) / corners) / 2 / np.cos(np.pi / corners)
    outlines = np.stack([X.reshape(-1, 1) + corner.real, Y.reshape(-1, 1) + corner.imag], 2)
    inside = np.where(lattice.solid.ravel(), GREY, "white")
    style = {"facecolors": inside, "edgecolors": PALE, "linewidths": 0.8}
    ax.add_collection(made.PolyCollection(outlines, **style))
    for i, (u, v) in enumerate(gas.velocities):
        here = lattice.states >> i & 1 > 0
        x, y = X[here], Y[here]
        looks: dict[str, Any] = {"units": "xy", "color": INK}
        if u or v:
            ax.quiver(x, y, 0.46 * u, 0.46 * v, zorder=3, **IN_CELLS | ARROW | looks)
        else:
            sizes, looks["offsets"] = np.full(here.sum(), 0.24), np.column_stack([x, y])
            looks["offset_transform"] = ax.transData
            ax.add_collection(made.EllipseCollection(sizes, sizes, 0 * sizes, **looks))
    top, right = lattice.size[1] * gas.row_distance, X.max() + 0.6
    ax.hlines((0, top), -0.6, right, "black", linewidth=2, clip_on=False)
    ax.set(aspect="equal", xlim=(-0.6, right), ylim=(0, top), xticks=[], yticks=[])
    ax.spines[:].set_visible(False)
    return ax


def bar(image: Any, label: str | None, ax: Axes) -> None:
    """The bar of an image's colours beside its Axes, about as high as the image will be. Arrows
    have none."""
    if label is not None:
        room = ax.get_window_extent()
        share = min(1.0, 0.85 * ax.get_data_ratio() * room.width / room.height)
        size = {"shrink": share, "aspect": max(5, 25 * share), "pad": 0.02}
        ax.figure.colorbar(image, ax=ax, label=label, **size)


def plot(
    source: Source,
    what: Quantity | Array | None = None,
    ax: Axes | None = None,
    *,
    block: tuple[int, int] = (8, 9),
    smooth: float = 0.0,
    colorbar: bool = True,
    **options: Any,
) -> Any:
    """Shows a lattice or blocks on Axes of matplotlib.

    Parameters
    ----------
    source : Lattice or Blocks
        What is shown.
    what : str or array, optional
        "speed", "east", "north", "vorticity", "density", "filling" or "pressure", or an array [row,
        column] of the blocks, whose masked values are grey. Or for the arrows of at most 20,000
        cells "particles". By default the speed, or of a lattice of at most 2000 cells its
        particles.
    ax : matplotlib.axes.Axes, optional
        By default pyplot's.
    block : pair of int, optional
        The columns and rows of a block, in which a lattice is shown.
    smooth : float, optional
        The width in blocks of the Gaussian of `Blocks.smooth`.
    colorbar : bool, optional
        Whether there is a bar of the colours.
    **options
        Of `imshow`, such as vmin, vmax, cmap and interpolation.

    Returns
    -------
    matplotlib.image.AxesImage or matplotlib.axes.Axes
        The image, or of particles the Axes.

    Raises
    ------
    Fault
        If there is no such picture of the source.

    Examples
    --------
    >>> from matplotlib.figure import Figure
    >>> start = fhpgas.draw_gas(0.2, size=fhpgas.Size(64, 36), seed=1)
    >>> start.plot("density", Figure().subplots()).get_array().shape
    (4, 8)
    """
    if ax is None:
        ax = library("matplotlib.pyplot").gca()
    label, (shown,), options = prepared([source], what, block, smooth, options)
    image = draw(shown, ax, options)
    bar(image, label if colorbar else None, ax)
    return image


def strip(
    sources: Iterable[Source],
    what: Quantity | Array | None = None,
    *,
    block: tuple[int, int] = (8, 9),
    smooth: float = 0.0,
    columns: int | None = None,
    **options: Any,
) -> Figure:
    """A figure of pyplot with several states of a lattice, which have one range of colours.

    Parameters
    ----------
    sources : iterable of Lattice or Blocks
        The states.
    what, block, smooth, **options
        As in `plot`.
    columns : int, optional
        How many stand beside one another, by default as many as make the figure about three times
        as wide as high.

    Returns
    -------
    matplotlib.figure.Figure

    Examples
    --------
    >>> start = fhpgas.draw_gas(0.2, size=fhpgas.Size(64, 36), seed=1)
    >>> len(fhpgas.strip([start, start], "density").axes)
    3
    """
    pyplot = library("matplotlib.pyplot")
    label, many, options = prepared(sources, what, block, smooth, options)
    n, aspect = len(many), aspect_of(many[0].source)
    divisors = (k for k in range(1, n + 1) if n % k == 0)
    good = min(divisors, key=lambda k: abs(np.log(k * k / n / aspect / 3)))
    across = integer("the number of columns", good if columns is None else columns, 1, n)
    down = -(-n // across)
    size = 9, max(2.2, down * (7.6 / across * aspect + 0.4) + 0.5)
    shared = {"squeeze": False, "sharex": True, "sharey": True}
    figure, grid = pyplot.subplots(down, across, figsize=size, layout="constrained", **shared)
    for shown, ax in zip(many, grid.flat):
        image = draw(shown, ax, options)
        ax.set_title(f"generation {shown.source.generation}", fontsize="medium")
        ax.label_outer()
    for ax in grid.flat[n:]:
        ax.axis("off")
    if label is not None:
        figure.colorbar(image, ax=grid, label=label, aspect=30)
    return figure


def aspect_of(source: Source) -> float:
    return source.size[1] * source.gas.row_distance / source.size[0]


def axes_of(source: Source) -> Axes:
    """The Axes of a figure beside pyplot, which is as high as the lattice asks."""
    size = min(7, 8 / aspect_of(source) + 2.5), max(1.5, min(9, 5.4 * aspect_of(source) + 0.8))
    figure = library("matplotlib.figure").Figure(figsize=size, layout="constrained")
    return figure.add_subplot()


def png(source: Source) -> bytes:
    """What a notebook shows for a lattice or blocks."""
    ax, out = axes_of(source), io.BytesIO()
    plot(source, None, ax)
    ax.set_title(repr(source)[1:-1], fontsize="small")
    ax.figure.savefig(out, format="png", dpi=100)
    return out.getvalue()


def film(
    path: Path,
    sources: Iterable[Source],
    what: Quantity | Array | None = None,
    *,
    block: tuple[int, int] = (8, 9),
    smooth: float = 0.0,
    fps: float = 10.0,
    dpi: int = 100,
    **options: Any,
) -> None:
    """Writes a film of lattices or blocks.

    Parameters
    ----------
    path : path
        The file, a .gif, .webp or .apng, or if there is ffmpeg a .mp4.
    sources : iterable of Lattice or Blocks
        The frames, which may come one by one. All have one range of colours.
    what, block, smooth, **options
        As in `plot`.
    fps : float, optional
        Frames per second.
    dpi : int, optional
        Dots per inch. With 100 a frame is at most 700 x 900 pixels.

    Raises
    ------
    Fault
        If the file cannot be written, there is no frame, or frames differ in size.

    Examples
    --------
    >>> start = fhpgas.draw_gas(0.2, size=fhpgas.Size(64, 36), seed=1)
    >>> fhpgas.film("rest.gif", start.every(5, 2), "density")
    """
    suffix, fps = film_suffix(path), real("the frames per second", fps, 0.1, 100)
    dpi = integer("the dots per inch", dpi, 10, 1000)
    label, many, options = prepared(sources, what, block, smooth, options)
    ax = axes_of(many[0].source)
    ax.set_title("generation")
    bar(draw(many[0], ax, options), label, ax)
    ax.figure.draw_without_rendering()
    ax.figure.set_layout_engine("none")  # so that nothing moves
    if suffix in PILLOW:
        return write_frames(path, redrawn(ax, many, options), fps, dpi)
    writer = library("matplotlib.animation").FFMpegWriter(fps=fps)
    with of_file(path), tempfile.TemporaryDirectory() as room:
        made, failed = pathlib.Path(room, f"film{suffix}"), subprocess.CalledProcessError
        with contextlib.suppress(failed), writer.saving(ax.figure, os.fspath(made), dpi):
            for _ in redrawn(ax, many, options):
                writer.grab_frame()
        if b"moov" not in (written := made.read_bytes()):  # it comes last
            raise Fault(f"{path}: ffmpeg wrote no whole film to {room}")
        write_whole(path, written)


def film_suffix(path: Path) -> str:
    """The suffix of a film that can be written."""
    suffix = pathlib.Path(path).suffix
    if suffix not in PILLOW + FFMPEG:
        raise Fault(f"{path}: a film is written as {', '.join(PILLOW + FFMPEG)}")
    if not pathlib.Path(path).absolute().parent.is_dir():
        raise Fault(f"{path}: No such file or directory")
    if suffix in FFMPEG and not shutil.which("ffmpeg"):
        raise Fault(f"{path}: a film of this kind needs the program ffmpeg")
    return suffix


def redrawn(ax: Axes, many: list[Shown], options: dict[str, Any]) -> Iterator[Figure]:
    """The figure of Axes, on which one after the other is shown."""
    for shown in many:
        for artist in [*ax.images, *ax.collections]:
            artist.remove()
        draw(shown, ax, options)
        ax.set_title(f"generation {shown.source.generation}")
        yield ax.figure


def write_frames(path: Any, figures: Iterable[Figure], fps: float, dpi: int) -> None:
    """Writes a film by Pillow."""
    canvas_of = library("matplotlib.backends.backend_agg").FigureCanvasAgg
    image_of, frames, palette = library("PIL.Image").fromarray, list[Any](), None
    for figure in figures:
        figure.set_dpi(dpi)
        (canvas := canvas_of(figure)).draw()
        frame = image_of(np.asarray(canvas.buffer_rgba())).convert("RGB")
        if str(path).endswith(".gif"):  # all have the 256 colours of the first, which has the bar
            palette = palette or frame.quantize()
            frame = frame.quantize(palette=palette, dither=0)
        frames.append(frame)
    more = {"append_images": frames[1:], "duration": int(1000 / fps), "loop": 0}
    film, kind = io.BytesIO(), pathlib.Path(path).suffix[1:].replace("apng", "png")
    frames[0].save(film, kind, save_all=True, **more)
    write_whole(path, film.getvalue())

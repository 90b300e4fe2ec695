"""Names and limits of scenes, plans (docs/FORMATS.md) and pictures, for the standard library."""
from typing import Literal, TypeAlias

Quantity: TypeAlias = Literal[  # of a picture: fields of blocks, and particles of a small lattice
    "speed", "east", "north", "vorticity", "density", "filling", "pressure", "particles"
]
DRIVES = "rows", "directions"  # along which a force flips particles
PILLOW, FFMPEG = (".gif", ".webp", ".apng"), (".mp4",)  # films, by what writes them
MOST_SIDE, MOST_BLOCK, MOST_BYTES = 65536, 4096, 67_108_864
MOST_SEED, MOST_GENERATIONS, LAST_OF_SCENE = 2**63 - 1, 1_000_000, 10**12
MOST_GENERATION = LAST_OF_SCENE + MOST_GENERATIONS  # after a run, with which none can begin
MOST_STAGES, CAPACITY, MOST_CAPACITY = 64, 128, 1024


def map_bytes(columns: int, rows: int) -> int:
    """At most how many bytes the scene of a map of this size has, as the package writes it."""
    return rows * (2 * columns + 8) + 200

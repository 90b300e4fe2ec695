"""Compares the example of docs/LIBRARY.md, crates/example_columns, with the built fhpgas. The stored
output of the example, which reads scenes/wind.toml, has the particles that fhpgas counts in blocks of
one column. rt ci proves the example and checks that it prints that output."""

import needs

EXAMPLE = needs.ROOT / "crates/example_columns"
COLUMNS = "coarse --generations 12 --block-width 1 --block-height 16"  # blocks as high as the scene's lattice


def test_example_reads_the_stored_scene():
    assert (EXAMPLE / "stdin").read_text() == (needs.ROOT / "scenes/wind.toml").read_text()


def test_example_prints_the_particles_of_columns(program):
    table = needs.printed([program, *COLUMNS.split()], (EXAMPLE / "stdin").read_bytes()).decode()
    particles = [int(line.split()[3]) for line in table.splitlines()[1:]]
    most = max(particles)
    first, *columns, last = (EXAMPLE / "stdout").read_text().splitlines()
    assert first == f"generation 12: {sum(particles)} particles"
    assert columns == [f"column {x}: {n}" for x, n in enumerate(particles)]
    assert last == f"the fullest is column {particles.index(most)}, with {most}"

#!/usr/bin/env python3
"""Makes a picture: a slice of a dataset at four levels, and how many bytes each of them took.

    examples/slice.py [DATASET] PICTURE.png

Without DATASET it first writes one of 128^3 samples, two vortices that wind around each other, into a folder of its own.
"""
from __future__ import annotations

import argparse
import tempfile
from pathlib import Path

import matplotlib

matplotlib.use("Agg")
import matplotlib.pyplot as plt
import numpy as np

import idxtool

SIDE = 128
"""How many samples the dataset has along each axis."""


def vortices(side: int) -> np.ndarray:
    """The speed around two vortices that wind around each other along axis 2: an array (z, y, x) of float32."""
    z, y, x = np.meshgrid(*[np.linspace(-1, 1, side, dtype=np.float32)] * 3, indexing="ij")
    speed = np.zeros_like(x)
    for turn in (0, np.pi):
        from_x, from_y = x - 0.4 * np.cos(3 * z + turn), y - 0.4 * np.sin(3 * z + turn)
        distance = np.hypot(from_x, from_y)
        speed += np.exp(-8 * distance ** 2) * (1 + 0.3 * np.cos(8 * np.arctan2(from_y, from_x) + 40 * distance))
    return speed


def draw(dataset: idxtool.Dataset, picture: Path) -> None:
    """Draws the middle slice across the last axis at four levels, each three levels finer than the one before."""
    field, last = next(iter(dataset.fields)), dataset.levels
    levels = [last - 9, last - 6, last - 3, last]
    low, high = dataset.box[-1]
    middle = (low + high + 1) // 2
    box = (*dataset.box[:-1], (middle, middle))
    figure, places = plt.subplots(1, len(levels), figsize=(12, 3.4), layout="constrained")
    for place, level in zip(places, levels):
        plane = dataset.read(field, box, level)[0]
        (left, right), (bottom, top) = dataset.box[:2]
        place.imshow(plane, origin="lower", extent=(left, right + 1, bottom, top + 1), cmap="magma", vmin=0, vmax=1.3)
        place.set_title(f"level {level}: {plane.shape[1]} × {plane.shape[0]}, {plane.nbytes:,} bytes", fontsize=10)
        place.tick_params(labelsize=8)
    figure.savefig(picture, dpi=80)


def main() -> None:
    parser = argparse.ArgumentParser(description=__doc__, formatter_class=argparse.RawDescriptionHelpFormatter)
    parser.add_argument("dataset", type=Path, nargs="?", help="the header's file of a dataset of three axes")
    parser.add_argument("picture", type=Path)
    given = parser.parse_args()
    with tempfile.TemporaryDirectory() as folder:
        path = given.dataset
        if path is None:
            path = Path(folder) / "vortices.idx"
            idxtool.write(path, vortices(SIDE), "speed")
        draw(idxtool.open(path), given.picture)


if __name__ == "__main__":
    main()

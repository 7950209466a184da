#!/usr/bin/env python3
"""Compares pictures of VLC with those of `screen`: compare_vlc.py PROGRAM FILE FOLDER

FILE is a .cdg file that begins with the packs of block 0. FOLDER has VLC's pictures sceneNNNNN.png, one for each block. VLC
converts them to YUV with half the resolution of colours, so only the centres of tiles are compared. They may differ by
MAX_DIFFERENCE levels. On a busy machine VLC drops pictures, so a picture may belong to a later block.
"""
import argparse
import subprocess
import sys
from pathlib import Path

from PIL import Image

MAX_DIFFERENCE, MAX_DELAY, BLOCKS = 8, 6, 1798
WIDTH, HEIGHT, TILE_WIDTH, TILE_HEIGHT = 300, 216, 6, 12
MOMENTS = (400, 777, 800, 1200, 1500)


def centres(picture: Image.Image) -> list[int]:
    pixels = picture.convert("RGB").tobytes()
    places = [
        WIDTH * (TILE_HEIGHT * row + TILE_HEIGHT // 2) + TILE_WIDTH * column + TILE_WIDTH // 2
        for row in range(HEIGHT // TILE_HEIGHT)
        for column in range(WIDTH // TILE_WIDTH)
    ]
    return [level for place in places for level in pixels[3 * place : 3 * place + 3]]


def expected_centres(program: str, file: Path, block: int) -> list[int]:
    time = f"{block // 4500:02}:{block // 75 % 60:02}:{block % 75:02}"
    words = [program, "screen", "--lead-in", "0", "--form", "cooked", "--at", time, "--", str(file)]
    pixels = subprocess.run(words, capture_output=True, check=True).stdout[-3 * WIDTH * HEIGHT :]
    return centres(Image.frombytes("RGB", (WIDTH, HEIGHT), pixels))


def main() -> int:
    parser = argparse.ArgumentParser(description=__doc__)
    parser.add_argument("program")
    parser.add_argument("file", type=Path)
    parser.add_argument("folder", type=Path)
    arguments = parser.parse_args()
    dropped = BLOCKS - len(list(arguments.folder.glob("scene*.png")))
    if dropped > BLOCKS // 4:
        print(f"compare_plugins: the pictures of VLC are skipped, it dropped {dropped} of {BLOCKS}")
        return 0
    for moment in MOMENTS:
        with Image.open(arguments.folder / f"scene{moment:05}.png") as picture:
            levels = centres(picture)
        distances = [
            max(
                abs(one - other)
                for one, other in zip(levels, expected_centres(arguments.program, arguments.file, moment + later))
            )
            for later in range(dropped + MAX_DELAY + 1)
        ]
        if min(distances) > MAX_DIFFERENCE:
            print(f"compare_vlc: picture {moment} differs by {min(distances)} levels", file=sys.stderr)
            return 1
    print(f"compare_plugins: VLC, a .cdg file: {len(MOMENTS)} pictures equal those of screen, within {MAX_DIFFERENCE} levels")
    return 0


if __name__ == "__main__":
    sys.exit(main())

#!/usr/bin/env bash
# Compares what the program writes in the mode `generate` with numbers that are computed here from the definitions
# alone (docs/FORMATS.md): the draws, the tiles that each publication touches, and the sum of the values in them, each
# value looked up over all sources of the store, with no tile made from another. The stores are drawn from
# the start 1 in one run and in two, and from as many more starts, two runs over one store, as the second argument
# says, or 10. Each store is checked afterwards.
#
#   check_drawn.sh [PROGRAM [STARTS]]
#
# PROGRAM is the path of the built program; with none it is built with `rt`. Needs python3 with NumPy.
set -u
. "$(dirname "$0")/built.sh" || exit 2
need python3
/usr/bin/python3 -c 'import numpy' 2>/dev/null || { echo "skipped: NumPy is missing"; exit 0; }

folder=$(mktemp -d)
trap 'rm -rf "$folder"' EXIT
if [ $# -gt 0 ]; then program=$(realpath "$1"); else program=$(built cdb_cli "$folder") || exit; fi

/usr/bin/python3 - "$program" "$folder" "${2:-10}" <<'PYTHON'
import itertools
import os
import random
import shutil
import subprocess
import sys

import numpy as np

program, folder, starts = sys.argv[1], sys.argv[2], int(sys.argv[3])
DEGREE = 2025 * 2**34  # arc units
VOID, FINEST, COARSEST = -32768, 1, -10  # no drawn source is finer than level 1
FAR = 1 << 20  # above every value


def step_of(level):
    return 2025 * 2 ** (24 - level)


# How many degrees wide the geocells are whose south edge this is; drawn sources lie between 40 and 56 north.
def width_of(south):
    return 2 if south >= 50 else 1


def along(level):
    return 1 if level < 0 else 2**level


def side_of(level):
    return 2 ** (10 + level) if level < 0 else 1024


class Source:
    def __init__(self, draw):
        self.material = draw() % 4 == 3
        self.level = -6 + draw() % 8
        self.south, self.west = (40 + draw() % 12) * DEGREE, draw() % 20 * DEGREE
        self.rows, self.columns = 1 + draw() % 64, 1 + draw() % 64
        self.step, base = step_of(self.level), draw()
        numbers = base + 7 * np.arange(self.rows)[:, None] + 13 * np.arange(self.columns)[None, :]
        self.posts = 1 + numbers % 255 if self.material else numbers % 2001

    # The south-west corners of the geocells that the box may meet.
    def geocells(self):
        north, east = self.south + self.rows * self.step, self.west + self.columns * self.step
        for south in range(self.south // DEGREE, north // DEGREE + 1):
            width = width_of(south)
            for west in range((self.west // DEGREE + 180) // width * width - 180, east // DEGREE + 1, width):
                yield south, west

    # Which rows and columns of elements of this level of a geocell have their places in the box, each with the rows or
    # columns of the posts that they take. An elevation's place is the south-west corner, a material's the centre.
    def inside(self, geocell, level):
        south, west = geocell
        step = step_of(level)
        return (self.taken(south * DEGREE - self.south, step, self.rows, level),
                self.taken(west * DEGREE - self.west, step * width_of(south), self.columns, level))

    def taken(self, first, step, count, level):
        places = first + step * np.arange(along(level) * side_of(level)) + (step // 2 if self.material else 0)
        at = np.flatnonzero((places >= 0) & (places // self.step < count))
        if not self.material:
            # The box ends at the last post. A place between two posts would have their mean, but there is none.
            at = at[places[at] <= (count - 1) * self.step]
            assert not (places[at] % self.step).any()
        return at, places[at] // self.step


def publications(start, count):
    state = start

    def draw():
        nonlocal state
        state = (6364136223846793005 * state + 1442695040888963407) % 2**64
        return state >> 32

    return [[Source(draw) for _ in range(1 + draw() % 3)] for _ in range(count)]


# The tiles that sources reach: family, level, geocell, and the tile's row and column there.
def touched(sources):
    found = set()
    for source in sources:
        families = ["material"] if source.material else ["elevation", "least", "greatest"]
        for geocell in source.geocells():
            rows, columns = (at for at, _ in source.inside(geocell, source.level))
            for level in range(COARSEST, source.level + 1):
                elements = side_of(level) * 2 ** (source.level - level)
                tiles = itertools.product(set(rows // elements), set(columns // elements))
                found |= {(family, level, geocell, tile) for tile in tiles for family in families}
    return found


# The values of one geocell over all sources of a store, each level as a whole.
class Values:
    def __init__(self, sources, geocell):
        self.sources, self.geocell, self.known = sources, geocell, {}

    def of(self, family, level):
        if (family, level) not in self.known:
            self.known[family, level] = getattr(self, family)(level)
        return self.known[family, level]

    def painted(self, sources, level, void):
        grid = np.full([along(level) * side_of(level)] * 2, void)
        for source in sources:
            (rows, from_rows), (columns, from_columns) = source.inside(self.geocell, level)
            grid[np.ix_(rows, columns)] = source.posts[np.ix_(from_rows, from_columns)]
        return grid

    # The source of the greatest level counts, and of these the newest: it is painted last.
    def elevation(self, level):
        fine = [source for source in self.sources if not source.material and source.level >= level]
        return self.painted(sorted(fine, key=lambda source: source.level), level, VOID)

    # The least, or the greatest, of the elevations of all finer levels in a cell.
    def extreme(self, level, least, void):
        found = None
        for finer in range(level, FINEST + 1):
            grid, cells = self.of("elevation", finer), 2 ** (finer - level)
            grid = np.where(grid == VOID, void, grid)
            split = grid.reshape(len(grid) // cells, cells, len(grid) // cells, cells)
            part = split.min(axis=(1, 3)) if least else split.max(axis=(1, 3))
            found = part if found is None else np.minimum(found, part) if least else np.maximum(found, part)
        return np.where(found == void, VOID, found)

    def least(self, level):
        return self.extreme(level, True, FAR)

    def greatest(self, level):
        return self.extreme(level, False, -FAR)

    # The most frequent value of the four finer cells, or the least such; else that of the newest source.
    def material(self, level):
        own = self.painted([source for source in self.sources if source.material and source.level == level], level, 0)
        if level == FINEST:
            return own
        finer = self.of("material", level + 1)
        four = np.stack([finer[a::2, b::2] for a in (0, 1) for b in (0, 1)])
        counts = (four[:, None] == four[None]).sum(axis=1)
        rank = np.where(four > 0, counts * 256 - four, -FAR)
        mode = np.take_along_axis(four, rank.argmax(axis=0)[None], axis=0)[0]
        return np.where(mode > 0, mode, own)


def sum_of(sources, tiles):
    total, values = 0, {}
    for family, level, geocell, (row, column) in sorted(tiles, key=lambda tile: tile[2]):
        if geocell not in values:
            values = {geocell: Values(sources, geocell)}
        side = side_of(level)
        grid = values[geocell].of(family, level)[row * side:(row + 1) * side, column * side:(column + 1) * side]
        total += int(grid[grid != VOID].sum())
    return total


def written(where, *words):
    made = subprocess.run([program, *words], cwd=where, stdin=subprocess.DEVNULL, capture_output=True, text=True)
    return made.stdout if made.returncode == 0 else f"status {made.returncode}: {made.stdout}"


# Draws these starts and counts over one store, one after another; how many answers are other than they should be.
def check_store(runs):
    where = folder + "/store"
    shutil.rmtree(where, ignore_errors=True)
    os.makedirs(where)
    sources, versions, files, wrong = [], 0, 0, 0
    for start, count in runs:
        tiles = total = 0
        for publication in publications(start, count):
            sources += publication
            reached = touched(publication)
            tiles, total = tiles + len(reached), total + sum_of(sources, reached)
            versions, files = versions + 1, files + 1 + len(publication) + len(reached)
        words = "--mode", "generate", "--start", str(start), "--count", str(count)
        for words, wanted in ((words, f"versions {versions}\nfiles {tiles}\nsum {total}\n"),
                              (("--mode", "check"), f"agrees {versions} {files}\n")):
            found = written(where, *words)
            if found != wanted:
                wrong += 1
                print(f"wrong: {runs}: {' '.join(words)} writes {found!r}, not {wanted!r}")
    print(f"{runs}: {versions} versions, {files} files", flush=True)
    return wrong


random.seed(1)
stores = [[(1, 4)], [(1, 2), (1, 4)]]
stores += [[(random.randrange(2**32), 2), (random.randrange(2**32), 2)] for _ in range(starts)]
wrong = sum(map(check_store, stores))
print(f"{wrong} failures")
sys.exit(1 if wrong else 0)
PYTHON

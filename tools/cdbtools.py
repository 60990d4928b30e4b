"""What the tools share: arc units, names of tiles, and the program as a partner that answers lines."""
import os
import subprocess
import sys
from fractions import Fraction

DEGREE = 2025 << 34  # arc units in a degree
COARSEST, FINEST = -10, 23

DATASETS = {
    "elevation": "D001_S001_T001",
    "low": "D002_S001_T001",
    "high": "D002_S001_T002",
    "material": "D005_S001_T001",
}
NO_ELEVATION = -32768
NO_MATERIAL = 0
TILE_HEAD = 186  # bytes before the raster of a tile's file


def missing(what, package):
    """Ends the tool because something that it stands on isn't there."""
    print(f"{os.path.basename(sys.argv[0])}: {what} is missing (Debian: {package})", file=sys.stderr)
    sys.exit(2)


def wrong(text):
    """Ends the tool because of what it was given."""
    print(f"{os.path.basename(sys.argv[0])}: {text}", file=sys.stderr)
    sys.exit(2)


def step_of(level):
    """The step of a level in latitude, in arc units."""
    return 2025 << (24 - level)


def width_of(south):
    """The width in degrees of the geocells whose south edge is at this degree."""
    for least, most, width in ((-50, 49, 1), (-70, 69, 2), (-75, 74, 3), (-80, 79, 4), (-89, 88, 6)):
        if least <= south <= most:
            return width
    return 12


def west_of(south, longitude):
    """The west edge, in degrees, of the geocell that holds a longitude."""
    width = width_of(south)
    return -180 + (longitude + 180) // width * width


def side_of(level):
    """How many elements stand along a side of a tile."""
    return 1024 if level >= 0 else 1 << (10 + level)


def tiles_across(level):
    """How many tiles stand along a side of a geocell."""
    return 1 << max(level, 0)


def name_of(family, level, south, west, row, column):
    """The name of a tile's file."""
    latitude = f"{'N' if south >= 0 else 'S'}{abs(south):02d}"
    longitude = f"{'E' if west >= 0 else 'W'}{abs(west):03d}"
    folder = f"L{level:02d}" if level >= 0 else f"LC{-level:02d}"
    return f"{latitude}{longitude}_{DATASETS[family]}_{folder}_U{row}_R{column}.tif"


def degrees_word(units):
    """Arc units as the script writes degrees: a whole number or a fraction."""
    value = Fraction(units, DEGREE)
    return str(value.numerator) if value.denominator == 1 else f"{value.numerator}/{value.denominator}"


def degrees_text(units):
    """Arc units for people, in degrees."""
    return f"{units / DEGREE:.6f}".rstrip("0").rstrip(".") + " degrees"


def find_program(given):
    """The program: the one that is given, $CDB, the one built in this repository, or the one on the path."""
    here = os.path.dirname(os.path.realpath(__file__))
    built = os.path.join(here, "..", "crates", "cdb_cli", "out", "cdb_cli")
    for path in (given, os.environ.get("CDB"), built):
        if path and os.access(path, os.X_OK) and os.path.isfile(path):
            return os.path.realpath(path)
        if path and path in (given, os.environ.get("CDB")):
            wrong(f"there is no program {path}")
    for folder in os.environ.get("PATH", "").split(os.pathsep):
        path = os.path.join(folder, "cdb")
        if os.access(path, os.X_OK) and os.path.isfile(path):
            return path
    wrong("the program isn't found: build it by (cd crates/cdb_cli && rt run < stdin), or name it by --program")


class Ended(Exception):
    """The program ended before it answered."""


class Program:
    """The program over a store, which answers one line at a time."""

    def __init__(self, program, store, words=("--background", "0")):
        self.process = subprocess.Popen([program, *words], cwd=store, stdin=subprocess.PIPE, stdout=subprocess.PIPE)
        self.last = ""

    def ask(self, line):
        """The answer to a line, and the bytes of a tile's file where it has some."""
        try:
            self.process.stdin.write(line.encode() + b"\n")
            self.process.stdin.flush()
        except BrokenPipeError:
            pass
        answer = self.process.stdout.readline().decode().rstrip("\n")
        if not answer or answer.startswith("cdb: "):
            self.last = answer or self.last
            raise Ended(self.last)
        if answer.startswith("tile "):
            return answer, self.process.stdout.read(int(answer[5:]))
        return answer, b""

    def end(self):
        """Ends the run, and gives its status."""
        try:
            self.process.stdin.close()
        except BrokenPipeError:
            pass
        rest = self.process.stdout.read().decode(errors="replace").strip()
        self.last = rest.split("\n")[-1] if rest else self.last
        return self.process.wait()


STATUSES = {
    1: "it ran out of memory",
    2: "it doesn't take these words",
    3: "its input failed",
    4: "its output failed",
    5: "a call of the disk failed while the store was opened",
    6: "the folder isn't a store, or one that was damaged",
    7: "its input was too long",
    8: "a file of the store differs",
}

REFUSALS = {
    "halted": "a step failed earlier; open the store again",
    "busy": "another publication is going",
    "nothing": "nothing is to be published",
    "full": "64 sources are pending",
    "shelf": "reading the raster failed",
    "absent": "the raster isn't there",
    "input": "the raster isn't a TIFF file that is taken",
    "range": "a number of the source is out of range",
    "large": "the sources touch too many tiles at once",
    "entries": "the store has too many tiles already",
    "versions": "the store has 4,096 versions already",
    "fault": "a call of the disk failed",
    "damaged": "a file of the store is damaged",
    "memory": "memory is short",
    "name": "the tile's name isn't one",
    "session": "the session isn't open",
    "sessions": "64 sessions are open",
}


def in_words(refusal):
    """A refusal in a person's words."""
    words = refusal.split()
    return REFUSALS.get(words[1] if len(words) > 1 else "", "the line isn't taken")

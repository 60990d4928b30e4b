#!/usr/bin/env bash
# Tests the tools that stand around the program: rasters of each form that GDAL writes are imported, and what
# the store then gives is compared with their values; views are compared with the values that they show. The one
# argument is the program's path; without it the program is built first. Skipped as a whole where GDAL's Python
# module or Pillow is missing.
set -u
. "$(dirname "$0")/built.sh" || exit 2
need python3 gdal_translate gdalwarp
/usr/bin/python3 -c 'import numpy, osgeo.gdal, PIL' 2>/dev/null || { echo "skipped: GDAL's Python module or Pillow is missing"; exit 0; }

tools=$(cd "$(dirname "$0")" && pwd)
folder=$(mktemp -d)
trap 'rm -rf "$folder"' EXIT
if [ $# = 1 ]; then
    program=$(realpath "$1")
else
    program=$(built cdb_cli "$folder") || exit 2
fi

/usr/bin/python3 - "$tools" "$program" "$folder" <<'PYTHON'
import importlib.machinery
import importlib.util
import os
import re
import subprocess
import sys
from fractions import Fraction

import numpy as np
from osgeo import gdal
from PIL import Image

gdal.UseExceptions()
tools, program, folder = sys.argv[1:4]
sys.dont_write_bytecode = True
sys.path.insert(0, tools)
os.chdir(folder)
import cdbtools

passed = failed = 0


def check(name, holds, told=""):
    global passed, failed
    passed, failed = passed + bool(holds), failed + (not holds)
    if not holds:
        print(f"FAILED: {name} {told}")


def tool(name):
    loader = importlib.machinery.SourceFileLoader(name.replace("-", "_"), os.path.join(tools, name))
    module = importlib.util.module_from_spec(importlib.util.spec_from_loader(loader.name, loader))
    loader.exec_module(module)
    return module


def run(name, *words, store=None, given=program):
    rest = ["--store", store] if store else []
    rest += ["--program", given] if given else []
    return subprocess.run([os.path.join(tools, name), *map(str, words), *rest], capture_output=True, text=True)


def raster(path, values, south, west, step, step_east=None, void=-32768, system=4326):
    """A GeoTIFF whose posts stand at whole steps from the south-west corner."""
    from osgeo import osr
    rows, columns = values.shape
    east = Fraction(step_east or step)
    kind = gdal.GDT_Float32 if values.dtype.kind == "f" else gdal.GDT_Int16
    data = gdal.GetDriverByName("GTiff").Create(path, columns, rows, 1, kind)
    north = Fraction(south) + (rows - 1) * Fraction(step)
    data.SetGeoTransform([float(west - east / 2), float(east), 0, float(north + Fraction(step) / 2), 0, -float(step)])
    reference = osr.SpatialReference()
    reference.ImportFromEPSG(system)
    data.SetProjection(reference.ExportToWkt())
    if void is not None:
        data.GetRasterBand(1).SetNoDataValue(void)
    data.GetRasterBand(1).WriteArray(values)


view = tool("cdb-view")


def values_of(store, family, level, box, width, height):
    session = view.Store(program, store)
    units = [int(Fraction(number) * cdbtools.DEGREE) for number in box]
    values, there = view.mosaic(session, family, level, units, width, height)
    session.program.end()
    return values


# ---- each form that gdal_translate writes
step = Fraction(1, 1024)
rng = np.random.default_rng(7)
posts = rng.integers(-50, 4000, (257, 257)).astype(np.int16)
posts[10:20, 30:60] = -32768
raster("plain.tif", posts, 46, 7, step)
forms = {
    "default": [], "deflate": ["-co", "COMPRESS=DEFLATE"], "lzw": ["-co", "COMPRESS=LZW"], "tiled": ["-co", "TILED=YES"],
    "big endian": ["-co", "ENDIANNESS=BIG"], "float": ["-ot", "Float32"], "int32": ["-ot", "Int32"],
    "bigtiff": ["-co", "BIGTIFF=YES"], "one row a strip": ["-co", "BLOCKYSIZE=1"],
}
for name, words in forms.items():
    place = name.replace(" ", "-")
    subprocess.run(["gdal_translate", "-q", *words, "plain.tif", f"{place}.tif"], check=True)
    done = run("cdb-import", f"{place}.tif", store=f"store-{place}")
    check(f"import of {name}", done.returncode == 0, done.stdout + done.stderr)
    got = values_of(f"store-{place}", "elevation", 0, (46, 7, 46 + 257 * step, 7 + 257 * step), 257, 257)
    check(f"values of {name}", (got == posts).all())

# ---- voids by another number, values that are lost
floats = posts[:16, :16].astype(np.float32) + np.float32(0.25)
floats[3, 3], floats[4, 4], floats[5, 5] = -9999, 40000, np.nan
raster("floats.tif", floats, 46, 7, step, void=-9999)
done = run("cdb-import", "floats.tif", store="store-floats")
check("rounded values are told", "253 values were rounded" in done.stdout, done.stdout + done.stderr)
check("values out of range are told", "1 values are out of range" in done.stdout, done.stdout)
got = values_of("store-floats", "elevation", 0, (46, 7, 46 + 16 * step, 7 + 16 * step), 16, 16)
wanted = np.rint(floats)
wanted[3, 3] = wanted[4, 4] = wanted[5, 5] = -32768
check("values of floats", (got == wanted).all())

# ---- what isn't taken
raster("odd.tif", posts, 46, 7, Fraction(1, 1000))
done = run("cdb-import", "odd.tif", store="store-odd")
check("a step of no whole units", done.returncode == 2 and "arc units" in done.stderr, done.stderr)
raster("metres.tif", posts, 46, 7, step, system=32632)
done = run("cdb-import", "metres.tif", store="store-metres")
check("coordinates in metres", done.returncode == 2 and "degrees" in done.stderr, done.stderr)
subprocess.run(["gdal_translate", "-q", "-b", "1", "-b", "1", "plain.tif", "bands.tif"], check=True)
done = run("cdb-import", "bands.tif", store="store-bands")
check("two bands", done.returncode == 2 and "bands" in done.stderr, done.stderr)
done = run("cdb-import", "plain.tif", store="store-none", given="nowhere/cdb")
check("no program", done.returncode == 2 and "no program" in done.stderr, done.stderr)
done = run("cdb-import", "plain.tif", "--dry-run", store="store-dry")
check("a dry run writes nothing", done.returncode == 0 and not os.path.exists("store-dry") and "source elev 0 46 7 1/1024" in done.stdout)
os.makedirs("store-broken/cdb")
open("store-broken/cdb/HEAD", "w").write("none")
done = run("cdb-import", "plain.tif", store="store-broken")
check("a folder that is no store", done.returncode == 6 and "isn't a store" in done.stderr, f"{done.returncode} {done.stderr}")

# ---- across two geocells, and across a border of zones
raster("border.tif", posts, 49 + Fraction(7, 8), 7 + Fraction(7, 8), step, 2 * step)
done = run("cdb-import", "border.tif", store="store-border")
check("import across a border", done.returncode == 0, done.stderr)
south = 49 + Fraction(7, 8)
west = 7 + Fraction(7, 8)
upper = values_of("store-border", "elevation", 0, (50, west + Fraction(1, 8), 50 + 129 * step, west + Fraction(1, 8) + 193 * 2 * step), 193, 129)
check("values above the border", (upper == posts[:129, 64:]).all())
lower = values_of("store-border", "elevation", 0, (south, 8, 50, 8 + Fraction(1, 4)), 256, 128)
check("values below the border", (lower[:, ::2] == posts[129:, 64:192]).all())

# ---- later files win, versions and extremes
raster("later.tif", np.full((9, 9), 77, np.int16), 46 + 8 * step, 7 + 8 * step, step)
done = run("cdb-import", "later.tif", store="store-default")
check("a second publication", done.returncode == 0 and "published version 2" in done.stdout, done.stdout + done.stderr)
wanted = posts.copy()
wanted[257 - 17:257 - 8, 8:17] = 77
got = values_of("store-default", "elevation", 0, (46, 7, 46 + 257 * step, 7 + 257 * step), 257, 257)
check("the newest values", (got == wanted).all())
whole = [values_of("store-default", family, -10, (46, 7, 47, 8), 1, 1)[0, 0] for family in ("low", "high")]
there = wanted[wanted != -32768]
check("extremes of a geocell", whole[0] == there.min() and whole[1] == there.max(), str(whole))

# ---- views
for words in ([], ["--extremes"], ["--version", "2"]):
    done = run("cdb-view", 46, 7, Fraction(185, 4), Fraction(29, 4), "out.png", "--size", "256", *words, store="store-default")
    check(f"a view {words}", done.returncode == 0 and Image.open("out.png").size == (256 + 150, 256 + 68), done.stdout + done.stderr)
done = run("cdb-view", 46, 7, 47, 8, "out.png", "--version", "1", store="store-default")
check("a view of an older version", done.returncode == 2 and "newest version is 2" in done.stderr, done.stderr)
done = run("cdb-view", 10, 7, 11, 8, "out.png", store="store-default")
check("a view of nothing", done.returncode == 2 and "nothing is stored" in done.stderr, done.stderr)

# ---- materials
codes = rng.integers(1, 255, (64, 64)).astype(np.int16)
raster("codes.tif", codes, 46 + step / 2, 7 + step / 2, step, void=0)
done = run("cdb-import", "codes.tif", "--material", store="store-codes")
check("import of materials", done.returncode == 0, done.stdout + done.stderr)
got = values_of("store-codes", "material", 0, (46, 7, 46 + 64 * step, 7 + 64 * step), 64, 64)
check("values of materials", (got == codes).all())
done = run("cdb-view", 46, 7, 46 + Fraction(1, 16), 7 + Fraction(1, 16), "out.png", "--material", store="store-codes")
check("a view of materials", done.returncode == 0, done.stderr)

# ---- made terrain
done = subprocess.run([os.path.join(tools, "make-terrain"), "made.tif", "--side", "301", "--step", "1/300"], capture_output=True, text=True)
check("terrain is made", done.returncode == 0, done.stderr)
done = run("cdb-import", "made.tif", store="store-made")
check("made terrain is imported", done.returncode == 0, done.stdout + done.stderr)

print(f"{passed} passed, {failed} failed")
sys.exit(1 if failed else 0)
PYTHON

#!/usr/bin/env bash
# Makes a small room in Blender (tests/blender_room.py), with a point, a sun and an area light, and renders it by Cycles
# under each light alone and under all; exports each file by tools/blender/export.py, renders it by the program, turns
# the picture back into linear light and compares. Then it looks at what an export says of scenes that it cannot write
# whole. Give the program's path; without one it takes the built one. It needs Blender, with Cycles, and python3, and
# takes two minutes.
set -u
here=$(cd "$(dirname "$0")/.." && pwd)
program=$(realpath "${1:-$here/crates/lightcuts/out/lightcuts}") || exit 2
work=$(mktemp -d)
trap 'rm -rf "$work"' EXIT
cd "$work" || exit 2
good=0 bad=0

# told NAME COMMAND..: whether the command ends with 0
told() {
    local name=$1
    shift
    if "$@"; then
        good=$((good + 1))
    else
        bad=$((bad + 1))
        echo "$name: failed"
    fi
}

# exported STATUS NOTES FOLDER WORDS..: the status, and the lines on standard error, of an export into the folder of
# what Blender has by these words
exported() {
    local status=$1 notes=$2 folder=$3
    shift 3
    blender -b "$@" -P "$here/tools/blender/export.py" -- "$folder" $samples >log 2>notes
    local got=$?
    [ $got -eq "$status" ] && [ "$(cat notes)" = "$notes" ] || { echo "status $got"; cat log notes; false; }
}
samples=

# Sums over all lights, of 16 samples a pixel, with the white of Cycles' greatest value.
rendered() {
    local white
    white=$(python3 -c '
import array, sys
floats = array.array("f", open(sys.argv[1], "rb").read())
print(f"{max(floats) * 1.05:.4f}")' "$1.floats")
    sed -i "s/^error .*/error 0/; s/^cut .*/cut 65536/; s/^white .*/white $white/" "$1/scene.txt"
    echo 'grid 4' >>"$1/scene.txt"
    (cd "$1" && "$program" render scene.txt)
}

# The ratio of the means is near 1, and the pictures correlate.
alike() {
    python3 - "$1" <<'PY'
import array
import sys

name = sys.argv[1]
floats = array.array("f", open(name + ".floats", "rb").read())
kind, size, top, pixels = open(name + "/scene.ppm", "rb").read().split(b"\n", 3)
white = next(float(line.split()[1]) for line in open(name + "/scene.txt") if line.startswith("white"))
width, height = map(int, size.split())
rows = [pixels[3 * width * row:3 * width * (row + 1)] for row in reversed(range(height))]
light = [white * ((byte + 0.5) / 255) ** 2 if byte else 0.0 for row in rows for byte in row]
count = len(floats)
ours, theirs = sum(light) / count, sum(floats) / count
both = sum((a - ours) * (b - theirs) for a, b in zip(light, floats))
spreads = sum((a - ours) ** 2 for a in light) * sum((b - theirs) ** 2 for b in floats)
ratio, correlation = ours / theirs, both / spreads ** 0.5
print(f"{name}: means {ours:.5f} and {theirs:.5f} of Cycles, ratio {ratio:.4f}, correlation {correlation:.4f}")
sys.exit(len(light) != count or abs(ratio - 1) > 0.01 or correlation < 0.95)
PY
}

blender -b --factory-startup -P "$here/tests/blender_room.py" -- "$work" >log 2>&1 || { cat log; exit 2; }
for case in point sun area all; do
    told "export $case" exported 0 '' "$case" "$case.blend"
    told "render $case" rendered "$case"
    told "compare $case" alike "$case"
done

# Blender's own first scene, changed by an expression
started() {
    local status=$1 notes=$2 folder=$3
    exported "$status" "$notes" "$folder" --factory-startup --python-expr "
import bpy
scene, objects, lights = bpy.context.scene, bpy.data.objects, bpy.data.lights
def lamp(kind, name, energy=10.0):
    made = objects.new(name, lights.new(name, kind))
    made.data.energy = energy
    scene.collection.objects.link(made)
    return made
lights['Light'].shadow_soft_size = 0.0
scene.world = None
objects['Cube'].data.materials.clear()
$4"
}
rendered_small() {
    sed -i 's/^size .*/size 8 6/; s/^cut .*/cut 3/' "$1/scene.txt" && (cd "$1" && "$program" render scene.txt)
}
told 'a first scene' started 0 '' first ''
told 'the render of a first scene' rendered_small first
told 'no light' started 1 'nothing is written, as no surface or no light is left, of the scene: Scene' dark \
    "objects.remove(objects['Light'])"
told 'no folder without light' test ! -e dark
told 'no surface' started 1 'nothing is written, as no surface or no light is left, of the scene: Scene' empty \
    "objects['Cube'].hide_render = True"
told 'no camera' started 0 'no job is written, as there is no camera, of the scene: Scene' blind "scene.camera = None"
told 'no job without a camera' test ! -e blind/scene.txt -a -e blind/scene.obj
told 'what is left out' started 0 'a coordinate above 5000: left out are the objects: far
no kind of light that is written: left out are the lights: spot
a power below 0: left out are the lights: dark
an intensity above 10000: left out are the lights: bright
no area: left out are the lights: flat' left "lamp('SPOT', 'spot')
lamp('POINT', 'dark', -1.0).data.shadow_soft_size = 0.0
lamp('POINT', 'bright', 1e6).data.shadow_soft_size = 0.0
lamp('AREA', 'flat').scale = (0, 1, 1)
bpy.ops.mesh.primitive_plane_add(location=(9000, 0, 0))
bpy.context.object.name = 'far'"
told 'one light of these' test "$(grep -c '^[pas]' left/scene.lights)" -eq 1
samples=4096
told 'many samples' started 0 'samples of an area light, for the limit of all lights: 3276' many \
    "for number in range(20): lamp('AREA', f'panel {number}')"
told 'the render of many samples' rendered_small many
samples=4097
told 'too many samples' started 2 'usage: blender -b FILE -P export.py -- FOLDER [SAMPLES]' none ''

echo "$good passed, $bad failed"
[ $bad -eq 0 ]

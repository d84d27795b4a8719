#!/usr/bin/env python3
"""Writes the stage of this folder: stage.obj, stage.mtl, stage.lights and stage.txt, in metres.

Spheres, vases and a ring with highlights from soft to sharp stand on a glossy floor that curves up into a backdrop, between
two curtains. Bars of lamps hang above, coloured panels shine from the sides, and a row of footlights from the front.
Run it anywhere: it writes beside itself, and always the same bytes.
"""
import math

from mesh import Mesh, write_scene

HALF = 5.5
BACK = -4.0
FRONT = 3.0
BEND = 1.8
TOP = 6.0

WARM = (1.0, 0.66, 0.34)
COLD = (0.35, 0.6, 1.0)
WHITE = (1.0, 0.95, 0.88)
MAGENTA = (1.0, 0.2, 0.6)
TEAL = (0.1, 0.8, 0.75)


def numbers(values):
    return " ".join(f"{v:.4f}" for v in values)


def point(place, strength, tint):
    return f"point {numbers(place)} {numbers(strength * c for c in tint)}"


def area(corner, a, b, strength, tint, samples):
    return " ".join(("area", numbers(corner), numbers(a), numbers(b), numbers(strength * c for c in tint), str(samples)))


def turned(mesh, material, x, y, z, profile, sides):
    """A body of revolution on the places and normals (radius, height, outward, upward) of its outline from the foot up."""
    rows = []
    for radius, height, outward, upward in profile:
        angles = [2 * math.pi * k / sides for k in range(sides + 1)] if radius else [0.0]
        around = [(math.cos(t), -math.sin(t)) for t in angles]
        rows.append([((x + radius * c, y + height, z + radius * s), (outward * c, upward, outward * s)) for c, s in around])
    mesh.use(material)
    mesh.sheet(rows[::-1])


def sphere(mesh, material, x, y, z, radius):
    bands = 14
    profile = [(0, 0, 0, -1)]
    for k in range(1, bands):
        t = math.pi * k / bands
        profile.append((radius * math.sin(t), radius * (1 - math.cos(t)), math.sin(t), -math.cos(t)))
    turned(mesh, material, x, y, z, profile + [(0, 2 * radius, 0, 1)], 28)


def vase(mesh, material, x, y, z, height, belly):
    """A vase whose outline is a smooth wave that narrows to a neck and widens to a lip."""
    bands = 16
    profile = []
    for k in range(bands + 1):
        s = k / bands
        wave = math.pi * (1.5 * s + 0.1)
        radius = belly * (0.64 + 0.36 * math.sin(wave) + 0.2 * s**6)
        slope = belly * (0.54 * math.pi * math.cos(wave) + 1.2 * s**5) / height
        length = math.hypot(1, slope)
        profile.append((radius, height * s, 1 / length, -slope / length))
    turned(mesh, material, x, y, z, profile, 28)


def ring(mesh, material, x, y, z, radius, thickness):
    """A ring that stands upright, turned a little away from the front."""
    around, across = 36, 12
    turn = 0.5
    rows = []
    for i in range(around + 1):
        t = 2 * math.pi * i / around
        row = []
        for j in range(across + 1):
            p = 2 * math.pi * j / across
            normal = (math.cos(p) * math.cos(t), math.cos(p) * math.sin(t), math.sin(p))
            flat = (radius * math.cos(t) + thickness * normal[0], radius * math.sin(t) + thickness * normal[1], thickness * normal[2])
            row.append(((x + about(flat, turn)[0], y + flat[1], z + about(flat, turn)[2]), about(normal, turn)))
        rows.append(row)
    mesh.use(material)
    mesh.sheet(rows)


def about(vector, turn):
    """A vector turned about the upright axis."""
    x, y, z = vector
    return (x * math.cos(turn) + z * math.sin(turn), y, z * math.cos(turn) - x * math.sin(turn))


def backdrop(mesh):
    """The floor of the stage, which curves up into the wall behind it, and the front of its boards."""
    left, right = -HALF - 2, HALF + 2
    bends = [math.pi / 2 * k / 16 for k in range(17)]
    outline = [(BEND - BEND * math.cos(t), BACK + BEND - BEND * math.sin(t), math.cos(t), math.sin(t)) for t in bends]
    outline.append((TOP + 2, BACK, 0, 1))
    mesh.use("backdrop")
    mesh.sheet([[((x, y, z), (0, up, out)) for x in (right, left)] for y, z, up, out in outline])
    mesh.use("boards")
    mesh.polygon((left, 0, BACK + BEND), (left, 0, FRONT), (right, 0, FRONT), (right, 0, BACK + BEND))
    mesh.use("front")
    mesh.polygon((left, -1.2, FRONT), (right, -1.2, FRONT), (right, 0, FRONT), (left, 0, FRONT))


def curtain(mesh, x, end, z, folds):
    """A curtain from x to end that hangs in folds."""
    steps = folds * 8
    low, high = [], []
    for k in range(steps + 1):
        t = 2 * math.pi * folds * k / steps
        place = (x + (end - x) * k / steps, z + 0.16 * math.sin(t))
        slope = 0.16 * 2 * math.pi * folds / (end - x) * math.cos(t)
        length = math.hypot(1, slope)
        normal = (-slope / length, 0, 1 / length)
        low.append(((place[0], 0.0, place[1]), normal))
        high.append(((place[0], TOP, place[1]), normal))
    mesh.use("velvet")
    mesh.sheet([high, low])


def pelmet(mesh):
    """The short curtain above the stage, whose lower edge hangs in bows."""
    bows, folds = 7, 21
    steps = folds * 8
    low, high = [], []
    for k in range(steps + 1):
        t = 2 * math.pi * folds * k / steps
        x = (HALF + 0.5) * (2 * k / steps - 1)
        slope = 0.1 * 2 * math.pi * folds / (2 * HALF + 1) * math.cos(t)
        length = math.hypot(1, slope)
        normal = (-slope / length, 0, 1 / length)
        drop = 0.4 * abs(math.sin(math.pi * bows * k / steps))
        low.append(((x, 4.7 - drop, 2.45 + 0.1 * math.sin(t)), normal))
        high.append(((x, TOP, 2.45 + 0.1 * math.sin(t)), normal))
    mesh.use("velvet")
    mesh.sheet([high, low])


def plinth(mesh, x, z, radius, height):
    mesh.use("plinth")
    mesh.prism(x, 0, z, radius, radius, height, 40)


def bar_of_lamps(mesh, z, y, strength, tints):
    """A bar across the stage with cans on it, open below, and the lines of the lamps in them."""
    cans = 9
    lines = []
    mesh.use("iron")
    mesh.box(-HALF, y, z - 0.04, 2 * HALF, 0.08, 0.08)
    for k in range(cans):
        x = 4.4 * (2 * k / (cans - 1) - 1)
        mesh.prism(x, y - 0.5, z, 0.22, 0.14, 0.5, 12)
        for i in range(6):
            t = math.pi * i / 3
            lines.append(point((x + 0.05 * math.cos(t), y - 0.26, z + 0.05 * math.sin(t)), strength, tints[k % len(tints)]))
    return lines


def tube(mesh, x, z, height, tint):
    """An upright tube at the back of the stage, and the lines of the lamps that wind up around it."""
    mesh.use("tube")
    mesh.prism(x, 0, z, 0.05, 0.05, height, 8)
    dots = 40
    return [point((x + 0.14 * math.cos(2.4 * k), height * (k + 0.5) / dots, z + 0.14 * math.sin(2.4 * k)), 0.07, tint) for k in range(dots)]


def build():
    mesh = Mesh("A stage with smooth shapes, 11 metres wide.", "stage.mtl")
    backdrop(mesh)
    curtain(mesh, -HALF - 0.3, -3.0, 2.2, 6)
    curtain(mesh, 3.0, HALF + 0.3, 2.2, 6)
    pelmet(mesh)
    plinth(mesh, -1.9, -0.9, 0.55, 0.8)
    plinth(mesh, 1.9, -0.9, 0.55, 0.8)
    plinth(mesh, 0.0, -1.2, 1.15, 0.35)
    vase(mesh, "porcelain", -1.9, 0.8, -0.9, 1.7, 0.46)
    vase(mesh, "glaze", 1.9, 0.8, -0.9, 1.5, 0.5)
    ring(mesh, "gold", 0.0, 1.62, -1.2, 1.0, 0.27)
    for k, material in enumerate(("clay", "rubber", "lacquer", "enamel", "chrome")):
        angle = 0.56 * (k - 2)
        sphere(mesh, material, 3.1 * math.sin(angle), 0, 2.6 * math.cos(angle) - 1.2, 0.5)
    lines = ["# Bars of lamps above the stage, tubes and lamps before the backdrop, footlights, panels, and two spots in front."]
    lines += bar_of_lamps(mesh, 1.6, 4.7, 0.25, (WARM, WHITE))
    lines += bar_of_lamps(mesh, -0.2, 5.3, 0.25, (MAGENTA, WARM, COLD))
    lines += bar_of_lamps(mesh, -2.0, 5.9, 0.2, (COLD, TEAL))
    for x, tint in ((-3.6, COLD), (-2.4, MAGENTA), (-1.2, COLD), (1.2, TEAL), (2.4, COLD), (3.6, MAGENTA)):
        lines += tube(mesh, x, -2.1, 3.4 - 0.2 * abs(x), tint)
    for k in range(60):
        lines.append(point((12.8 * (k + 0.5) / 60 - 6.4, 0.3, BACK + 1.0), 0.02, (MAGENTA, COLD)[k * 5 // 60 % 2]))
    for k in range(48):
        lines.append(point((6.0 * (k + 0.5) / 48 - 3.0, 0.06, FRONT - 0.1), 0.008, WARM))
    lines.append(area((-5.2, 0.4, -1.5), (0, 2.6, 0), (0, 0, 2.2), 3.0, MAGENTA, 160))
    lines.append(area((5.2, 0.4, 0.7), (0, 2.6, 0), (0, 0, -2.2), 3.0, TEAL, 160))
    lines.append(area((-4.0, 5.0, 7.0), (8.0, 0, 0), (0, -0.5, 0.5), 4.0, WARM, 128))
    lines.append(point((-1.8, 7.5, 9.0), 9, WARM))
    lines.append(point((1.8, 7.5, 9.0), 9, COLD))
    return mesh, "\n".join(lines) + "\n"


MATERIALS = """\
# Highlights from soft to sharp: exponents from 20 to 500.
newmtl backdrop
Kd 0.4 0.4 0.44
newmtl boards
Kd 0.016 0.014 0.013
Ks 0.9 0.9 0.9
Ns 150
newmtl front
Kd 0.1 0.05 0.04
newmtl velvet
Kd 0.42 0.03 0.05
Ks 0.1 0.04 0.04
Ns 20
newmtl plinth
Kd 0.55 0.55 0.58
Ks 0.1 0.1 0.1
Ns 30
newmtl tube
Kd 0.8 0.8 0.8
newmtl iron
Kd 0.05 0.05 0.06
Ks 0.2 0.2 0.2
Ns 60
newmtl clay
Kd 0.45 0.2 0.09
Ks 0.5 0.5 0.5
Ns 20
newmtl rubber
Kd 0.06 0.22 0.08
Ks 0.6 0.6 0.6
Ns 60
newmtl lacquer
Kd 0.3 0.02 0.03
Ks 0.8 0.8 0.8
Ns 120
newmtl enamel
Kd 0.02 0.05 0.25
Ks 0.9 0.9 0.9
Ns 250
newmtl chrome
Kd 0.03 0.03 0.035
Ks 1 1 1
Ns 500
newmtl porcelain
Kd 0.6 0.6 0.57
Ks 0.5 0.5 0.5
Ns 200
newmtl glaze
Kd 0.03 0.16 0.18
Ks 0.8 0.8 0.8
Ns 300
newmtl gold
Kd 0.34 0.21 0.05
Ks 1 0.78 0.4
Ns 40
"""

JOB = """\
# Run it in the folder above this one: names are relative to the folder that the program is run in.
scene scenes/stage.obj
lights scenes/stage.lights
picture stage.ppm
bounds stage.lcb
eye 0 2.2 9.8
at 0 2.15 0
view 0.52
size 320 240
error 20
cut 120
white 0.4500
"""


if __name__ == "__main__":
    mesh, lights = build()
    write_scene("stage", mesh, MATERIALS, lights, JOB)

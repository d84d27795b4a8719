#!/usr/bin/env python3
"""Writes the street at night of this folder: street.obj, street.mtl, street.lights and street.txt, in metres.

Ten houses with shops stand along a street of 13 by 40 metres, and a theatre at its end. Lanterns, lit windows, shop windows
and strings of bulbs light it, and the moon from the left.
Run it anywhere: it writes beside itself, and always the same bytes.
"""
import math

from mesh import Mesh, write_scene

HALF = 6.5
KERB = 4.2
NEAR = 6.0
FAR = -34.0
GROUND_FLOOR = 3.5
STOREY = 3.0

# width, upper floors, windows on a floor, plaster, stripes of the awning (None: a bare shop window), tint of the shop
LEFT = (
    (8.0, 2, 3, "ochre", "red", "warm"),
    (7.5, 3, 3, "rose", None, "cold"),
    (9.0, 2, 4, "sage", "green", "warm"),
    (7.5, 3, 3, "cream", None, "pink"),
    (8.0, 2, 3, "brick", "red", "warm"),
)
RIGHT = (
    (8.0, 3, 3, "rose", "green", "warm"),
    (8.5, 2, 4, "cream", None, "cold"),
    (7.5, 3, 3, "brick", "blue", "warm"),
    (8.5, 2, 4, "sage", None, "pink"),
    (7.5, 3, 3, "ochre", "blue", "warm"),
)

TINTS = {
    "warm": (1.0, 0.72, 0.38),
    "lamp": (1.0, 0.66, 0.32),
    "cold": (0.55, 0.85, 1.0),
    "pink": (1.0, 0.45, 0.6),
    "red": (1.0, 0.07, 0.05),
}

LETTERS = {
    "L": ("X....", "X....", "X....", "X....", "X....", "X....", "XXXXX"),
    "U": ("X...X", "X...X", "X...X", "X...X", "X...X", "X...X", ".XXX."),
    "X": ("X...X", "X...X", ".X.X.", "..X..", ".X.X.", "X...X", "X...X"),
}


class Lights:
    """The lines of a light file, with intensities as a strength times a tint."""

    def __init__(self):
        self.lines = []

    def point(self, place, strength, tint):
        self.lines.append("point " + numbers(place) + " " + shares(strength, tint))

    def area(self, corner, a, b, strength, tint, samples):
        self.lines.append("area " + " ".join(numbers(v) for v in (corner, a, b)) + f" {shares(strength, tint)} {samples}")


def numbers(place):
    return " ".join(f"{c:.4f}" for c in place)


def shares(strength, tint):
    return numbers(strength * c for c in TINTS[tint])


class Front:
    """A wall along the street: u runs along it, y up and w out of it, from a place on the ground."""

    def __init__(self, mesh, x, z, out_x, out_z):
        self.mesh = mesh
        self.origin = (x, z)
        self.out = (out_x, out_z)

    def direction(self, u, y, w):
        return (u * self.out[1] + w * self.out[0], y, -u * self.out[0] + w * self.out[1])

    def place(self, u, y, w):
        x, y, z = self.direction(u, y, w)
        return (self.origin[0] + x, y, self.origin[1] + z)

    def polygon(self, *places):
        self.mesh.polygon(*(self.place(*p) for p in places))

    def box(self, u, y, w, du, dy, dw):
        self.mesh.block([self.place(u + a * du, y + b * dy, w + c * dw) for b in (0, 1) for a, c in ((0, 0), (1, 0), (1, 1), (0, 1))])

    def upright(self, u, top_u, y, top_y, w):
        """A rectangle that faces the street."""
        self.polygon((u, y, w), (top_u, y, w), (top_u, top_y, w), (u, top_y, w))

    def pierced(self, u, end, y, top, holes):
        """A wall from u to end and from y to top with rectangular holes side by side, all of one height."""
        low, high = holes[0][2], holes[0][3]
        if y < low:
            self.upright(u, end, y, low, 0)
        self.upright(u, end, high, top, 0)
        for left, right in zip([u] + [h[1] for h in holes], [h[0] for h in holes] + [end]):
            if left < right:
                self.upright(left, right, low, high, 0)

    def recess(self, hole, depth):
        """The four sides of a hole of that depth."""
        u, end, y, top = hole
        self.polygon((u, y, -depth), (u, y, 0), (u, top, 0), (u, top, -depth))
        self.polygon((end, y, 0), (end, y, -depth), (end, top, -depth), (end, top, 0))
        self.polygon((u, y, -depth), (end, y, -depth), (end, y, 0), (u, y, 0))
        self.polygon((u, top, 0), (end, top, 0), (end, top, -depth), (u, top, -depth))


def window(front, lights, hole, state):
    """A window set back in its wall: dark glass, or a curtain with lamps before it, behind a cross of bars."""
    u, end, y, top = hole
    depth = 0.45 if state else 0.16
    middle = (u + end) / 2
    front.mesh.use("frame")
    front.recess(hole, depth)
    front.upright(middle - 0.04, middle + 0.04, y, top, -0.1)
    front.upright(u, end, y + 1.1, y + 1.18, -0.1)
    front.box(u - 0.1, y - 0.1, 0, end - u + 0.2, 0.1, 0.16)
    front.mesh.use("curtain" if state else "glass")
    front.upright(u, end, y, top, -depth)
    if state:
        for k in range(4):
            lights.point(front.place(u + (k + 0.5) * (end - u) / 4, top - 0.18, -0.24), 0.03, state)


def shop(front, lights, hole, awning, tint):
    """A shop window with goods under a row of lamps. Its area light shines on the street."""
    u, end, y, top = hole
    width = end - u
    front.mesh.use("curtain")
    front.recess(hole, 1.0)
    front.upright(u, end, y, top, -1.0)
    goods = ("ochre", "rose", "sage", "cloth")
    for k in range(6):
        front.mesh.use(goods[(k * 3 + int(u)) % 4])
        size = 0.28 + 0.08 * (k * 5 % 3)
        front.box(u + 0.25 + k * (width - 0.8) / 5.5, y, -0.8, size, 0.4 + 0.3 * (k * 7 % 4), 0.4)
    front.mesh.use("frame")
    for k in range(1, 3):
        front.upright(u + k * width / 3 - 0.03, u + k * width / 3 + 0.03, y, top, -0.05)
    for k in range(8):
        lights.point(front.place(u + (k + 0.5) * width / 8, top - 0.15, -0.35), 0.035, tint)
    lights.area(front.place(u, y, 0.02), front.direction(width, 0, 0), front.direction(0, top - y, 0), 0.9, tint, 32)
    if awning:
        stripes = 12
        for k in range(stripes):
            left, right = u + k * width / stripes, u + (k + 1) * width / stripes
            front.mesh.use("cream" if k % 2 else awning)
            front.polygon((left, 2.55, 1.3), (right, 2.55, 1.3), (right, 3.15, 0.02), (left, 3.15, 0.02))
            front.polygon((left, 2.3, 1.3), (right, 2.3, 1.3), (right, 2.55, 1.3), (left, 2.55, 1.3))
            lights.point(front.place((left + right) / 2, 2.25, 1.38), 0.02, "warm")
    else:
        front.mesh.use("sign")
        front.box(u, top + 0.1, 0, width, 0.5, 0.12)
        for k in range(14):
            lights.point(front.place(u + (k + 0.5) * width / 14, top + 0.35, 0.3), 0.006, tint)


def door(front, u):
    front.mesh.use("wood")
    front.box(u, 0.15, -0.1, 1.0, 2.2, 0.05)
    front.mesh.use("brass")
    front.box(u + 0.85, 1.1, -0.05, 0.05, 0.2, 0.05)


def house(front, lights, u, number, width, floors, bays, plaster, awning, tint):
    end = u + width
    mesh = front.mesh
    display = (u + 0.6, end - 2.2, 0.6, 2.75)
    entry = (end - 1.6, end - 0.6)
    mesh.use(plaster)
    front.pierced(u, entry[0], 0.15, GROUND_FLOOR, [display])
    front.pierced(entry[0], end, 0.15, GROUND_FLOOR, [entry + (0.15, 2.35)])
    front.recess(entry + (0.15, 2.35), 0.1)
    shop(front, lights, display, awning, tint)
    door(front, entry[0])
    for floor in range(floors):
        y = GROUND_FLOOR + floor * STOREY
        pitch = width / bays
        holes = [(u + (i + 0.5) * pitch - 0.55, u + (i + 0.5) * pitch + 0.55, y + 0.8, y + 2.5) for i in range(bays)]
        mesh.use(plaster)
        front.pierced(u, end, y, y + STOREY, holes)
        for i, hole in enumerate(holes):
            roll = (number * 5 + floor * 3 + i * 7 + floor * i) % 9
            window(front, lights, hole, "warm" if roll in (0, 2, 5) else "lamp" if roll == 3 else "cold" if roll == 7 else None)
        mesh.use("stone")
        front.box(u, y - 0.1, 0, width, 0.2, 0.12)
    roof(front, u, end, GROUND_FLOOR + floors * STOREY, plaster)


def roof(front, u, end, eaves, plaster):
    """A cornice, a sloped roof with a chimney, and the sides and the back of the house."""
    ridge = eaves + 2.4
    mesh = front.mesh
    mesh.use("stone")
    front.box(u, eaves - 0.1, -0.1, end - u, 0.35, 0.5)
    mesh.use("slate")
    front.polygon((u, eaves, 0), (end, eaves, 0), (end, ridge, -4), (u, ridge, -4))
    front.polygon((end, eaves, -8), (u, eaves, -8), (u, ridge, -4), (end, ridge, -4))
    mesh.use(plaster)
    front.polygon((u, 0, -8), (u, 0, 0), (u, eaves, 0), (u, ridge, -4), (u, eaves, -8))
    front.polygon((end, 0, 0), (end, 0, -8), (end, eaves, -8), (end, ridge, -4), (end, eaves, 0))
    front.polygon((end, 0, -8), (u, 0, -8), (u, eaves, -8), (end, eaves, -8))
    mesh.use("brick")
    front.box(u + 1.2, eaves + 1, -3.2, 0.9, 2.4, 0.6)


def theatre(front, lights):
    """The house at the end: LUX in bulbs above a canopy with an area light beneath."""
    mesh = front.mesh
    mesh.use("stone")
    entry = (-3.5, 3.5, 0.15, 3.2)
    front.pierced(-16, 16, 0.15, 6.0, [entry])
    front.recess(entry, 1.5)
    front.upright(-16, -6, 6.0, 9.5, 0)
    front.upright(6, 16, 6.0, 9.5, 0)
    front.polygon((-6, 6.0, 0), (6, 6.0, 0), (6, 12.0, 0), (2.5, 13.5, 0), (-2.5, 13.5, 0), (-6, 12.0, 0))
    mesh.use("curtain")
    front.upright(-3.5, 3.5, 0.15, 3.2, -1.5)
    for k in range(14):
        lights.point(front.place(-3.25 + 0.5 * k, 3.0, -0.7), 0.06, "warm")
    mesh.use("stone")
    for k in range(4):
        u = -5.4 + 3.6 * k
        x, _, z = front.place(u, 0, 1.6)
        mesh.prism(x, 0.15, z, 0.28, 0.22, 3.35, 10)
    mesh.use("sign")
    front.box(-6, 3.5, 0, 12, 0.7, 2.2)
    front.box(-5.2, 6.1, 0, 10.4, 4.8, 0.2)
    for k in range(36):
        lights.point(front.place(-5.9 + 11.8 * k / 35, 3.85, 2.32), 0.14, "pink")
    lights.area(front.place(-6, 3.48, 0.1), front.direction(12, 0, 0), front.direction(0, 0, 2.0), 5.0, "warm", 128)
    for n, letter in enumerate("LUX"):
        for row, dots in enumerate(LETTERS[letter]):
            for column, dot in enumerate(dots):
                if dot == "X":
                    lights.point(front.place(-4.6 + 3.4 * n + 0.6 * column, 10.4 - 0.62 * row, 0.4), 0.2, "red")


def street_lamp(mesh, lights, x, z):
    mesh.use("iron")
    mesh.prism(x, 0.15, z, 0.16, 0.1, 0.5, 8)
    mesh.prism(x, 0.65, z, 0.055, 0.04, 3.35, 8)
    mesh.prism(x, 4.0, z, 0.05, 0.2, 0.12, 8)
    mesh.prism(x, 4.62, z, 0.3, 0.04, 0.25, 8)
    mesh.use("curtain")
    mesh.prism(x, 4.12, z, 0.09, 0.12, 0.38, 8)
    for dx, dz in ((0.2, 0), (-0.2, 0), (0, 0.2), (0, -0.2)):
        lights.point((x + dx, 4.34, z + dz), 0.9, "lamp")


def string_of_bulbs(mesh, lights, z):
    """Bulbs on a slack wire across the street, each with its light just below it."""
    bulbs = 44
    mesh.use("curtain")
    for k in range(bulbs):
        share = (k + 0.5) / bulbs
        x = HALF * (2 * share - 1)
        y = 8.6 - 4.4 * share * (1 - share)
        first = mesh.vertices([(x, y - 0.06, z), (x + 0.06, y, z), (x, y, z - 0.06), (x - 0.06, y, z), (x, y, z + 0.06), (x, y + 0.06, z)])
        for i in range(4):
            j = (i + 1) % 4
            mesh.face(first, first + 1 + j, first + 1 + i)
            mesh.face(first + 5, first + 1 + i, first + 1 + j)
        lights.point((x, y - 0.2, z), 0.01, ("warm", "lamp", "red", "warm", "cold", "lamp")[k % 6])


def extruded(mesh, x, end, profile):
    """A body between two planes across the street, from the places (z, y) of a convex outline."""
    low = [(x, y, z) for z, y in profile]
    high = [(end, y, z) for z, y in profile]
    mesh.polygon(*reversed(low))
    mesh.polygon(*high)
    for i in range(len(profile)):
        j = (i + 1) % len(profile)
        mesh.polygon(low[i], low[j], high[j], high[i])


def car(mesh, lights, x, z):
    """A parked car with its tail to the eye."""
    mesh.use("paint")
    extruded(mesh, x, x + 1.7, [(z - dz, y) for dz, y in ((0, 0.35), (4.1, 0.35), (4.15, 0.6), (3.9, 0.8), (0.1, 0.92), (-0.05, 0.7))])
    mesh.use("glass")
    extruded(mesh, x + 0.12, x + 1.58, [(z - dz, y) for dz, y in ((0.3, 0.92), (3.0, 0.85), (2.3, 1.36), (0.9, 1.38))])
    mesh.use("paint")
    extruded(mesh, x + 0.14, x + 1.56, [(z - dz, y) for dz, y in ((0.85, 1.38), (2.35, 1.36), (2.2, 1.42), (1.0, 1.44))])
    mesh.use("iron")
    for side in (x - 0.02, x + 1.52):
        for dz in (0.75, 3.35):
            rim = [math.pi * k / 6 for k in range(12)]
            extruded(mesh, side, side + 0.2, [(z - dz + 0.32 * math.cos(t), 0.34 + 0.32 * math.sin(t)) for t in rim])
    for dx in (0.2, 0.35, 1.35, 1.5):
        lights.point((x + dx, 0.74, z + 0.12), 0.02, "red")


def ground(mesh):
    mesh.use("asphalt")
    mesh.polygon((-30, 0, FAR - 5), (-30, 0, NEAR + 12), (30, 0, NEAR + 12), (30, 0, FAR - 5))
    mesh.use("paving")
    for x in (-HALF - 0.5, KERB + 0.2):
        mesh.box(x, 0, FAR, HALF - KERB + 0.3, 0.15, NEAR - FAR)
    mesh.box(-16, 0, FAR - 5, 32, 0.15, 2)
    mesh.use("stone")
    for x in (-KERB - 0.2, KERB):
        mesh.box(x, 0, FAR, 0.2, 0.16, NEAR - FAR)
    mesh.use("line")
    for k in range(7):
        mesh.box(-3.6 + 1.1 * k, 0, -4.6, 0.55, 0.001, 2.6)
    for k in range(7):
        mesh.box(-0.07, 0, -9.8 - 3.6 * k, 0.14, 0.001, 1.8)


def sky(mesh, lights):
    """An evening sky far behind the houses, with the light of the town at its foot."""
    mesh.use("sky")
    mesh.polygon((-120, 0, -90), (120, 0, -90), (120, 90, -90), (-120, 90, -90))
    for k in range(16):
        lights.point((-45 + 6 * k, 12, -80), 4, "pink" if k % 3 else "lamp")


def build():
    mesh = Mesh("A street at night, 13 by 40 metres.", "street.mtl")
    lights = Lights()
    ground(mesh)
    for x, z, out, houses in ((-HALF, NEAR, 1, LEFT), (HALF, FAR, -1, RIGHT)):
        front = Front(mesh, x, z, out, 0)
        u = 0
        for number, plan in enumerate(houses):
            house(front, lights, u, number + (3 if out < 0 else 0), *plan)
            u += plan[0]
    theatre(Front(mesh, 0, FAR - 4, 0, 1), lights)
    for k in range(6):
        street_lamp(mesh, lights, -KERB - 0.5, 1.5 - 7 * k)
        street_lamp(mesh, lights, KERB + 0.5, -2 - 7 * k)
    for k in range(7):
        string_of_bulbs(mesh, lights, -6.5 - 2.8 * k)
    car(mesh, lights, 2.2, -8.5)
    sky(mesh, lights)
    lights.lines.append("sun -0.55 0.75 0.4 0.0560 0.0900 0.1800")
    return mesh, "# Lamps, shop windows, strings of bulbs and the moon.\n" + "\n".join(lights.lines) + "\n"


MATERIALS = """\
# Plaster and stone, and wet asphalt, glass, iron and paint with highlights.
newmtl ochre
Kd 0.17 0.13 0.08
newmtl rose
Kd 0.17 0.11 0.10
newmtl sage
Kd 0.10 0.13 0.11
newmtl cream
Kd 0.22 0.20 0.16
newmtl brick
Kd 0.13 0.07 0.05
newmtl stone
Kd 0.15 0.14 0.14
newmtl slate
Kd 0.05 0.05 0.07
Ks 0.1 0.1 0.12
Ns 20
newmtl paving
Kd 0.06 0.06 0.06
Ks 0.3 0.3 0.3
Ns 30
newmtl asphalt
Kd 0.006 0.006 0.008
Ks 1 1 1
Ns 260
newmtl line
Kd 0.17 0.17 0.16
Ks 0.2 0.2 0.2
Ns 40
newmtl frame
Kd 0.09 0.08 0.08
newmtl curtain
Kd 0.26 0.24 0.21
newmtl glass
Kd 0.009 0.012 0.018
Ks 0.6 0.6 0.65
Ns 120
newmtl wood
Kd 0.08 0.042 0.024
Ks 0.1 0.1 0.1
Ns 40
newmtl brass
Kd 0.15 0.11 0.036
Ks 0.5 0.4 0.2
Ns 60
newmtl iron
Kd 0.015 0.018 0.018
Ks 0.4 0.4 0.4
Ns 80
newmtl paint
Kd 0.018 0.05 0.09
Ks 0.5 0.5 0.5
Ns 100
newmtl sign
Kd 0.036 0.036 0.05
newmtl cloth
Kd 0.07 0.09 0.15
newmtl red
Kd 0.18 0.03 0.024
newmtl green
Kd 0.03 0.11 0.05
newmtl blue
Kd 0.036 0.07 0.15
newmtl sky
Kd 0.05 0.07 0.11
"""

JOB = """\
# Run it in the folder above this one: names are relative to the folder that the program is run in.
scene scenes/street.obj
lights scenes/street.lights
picture street.ppm
bounds street.lcb
eye 0.9 1.5 4.5
at -0.5 2.3 -16
view 0.62
size 320 240
error 20
cut 100
white 0.0950
"""


if __name__ == "__main__":
    mesh, lights = build()
    write_scene("street", mesh, MATERIALS, lights, JOB)

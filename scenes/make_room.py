#!/usr/bin/env python3
"""Writes the furnished room of this folder: room.obj, room.mtl, room.lights and room.txt, in metres.

The room is 6 by 5 metres and 2.8 high, with a table, six chairs, a shelf of books, a sofa, a chandelier and a row of lamps.
Run it anywhere: it writes beside itself, and always the same bytes.
"""
import math

from mesh import Mesh, write_scene


def chair(mesh, x, z, turned):
    """A chair at a place, with its back on one of the two long sides of the table."""
    mesh.use("wood")
    for dx in (0, 0.36):
        for dz in (0, 0.36):
            mesh.box(x + dx, 0, z + dz, 0.04, 0.45, 0.04)
    mesh.box(x, 0.45, z, 0.4, 0.04, 0.4)
    back = z + 0.36 if turned else z
    mesh.use("cloth")
    mesh.box(x, 0.55, back, 0.4, 0.4, 0.04)


def build():
    mesh = Mesh("A furnished room, 6 by 5 metres and 2.8 high.", "room.mtl")
    mesh.use("floor")
    mesh.polygon((-3, 0, -2.5), (-3, 0, 2.5), (3, 0, 2.5), (3, 0, -2.5))
    mesh.use("wall")
    mesh.polygon((-3, 2.8, -2.5), (3, 2.8, -2.5), (3, 2.8, 2.5), (-3, 2.8, 2.5))
    mesh.polygon((-3, 0, -2.5), (3, 0, -2.5), (3, 2.8, -2.5), (-3, 2.8, -2.5))
    mesh.polygon((-3, 0, 2.5), (-3, 2.8, 2.5), (3, 2.8, 2.5), (3, 0, 2.5))
    mesh.use("red")
    mesh.polygon((-3, 0, -2.5), (-3, 2.8, -2.5), (-3, 2.8, 2.5), (-3, 0, 2.5))
    mesh.use("green")
    mesh.polygon((3, 0, -2.5), (3, 0, 2.5), (3, 2.8, 2.5), (3, 2.8, -2.5))
    # the table, with a bowl and six plates
    mesh.use("wood")
    mesh.box(-1.1, 0.72, -0.5, 2.2, 0.05, 1.0)
    for x in (-1.0, 0.92):
        for z in (-0.4, 0.32):
            mesh.box(x, 0, z, 0.08, 0.72, 0.08)
    mesh.use("china")
    mesh.prism(0, 0.77, 0, 0.09, 0.2, 0.1, 16)
    for i in range(3):
        for z in (-0.33, 0.33):
            mesh.prism(-0.75 + 0.75 * i, 0.77, z, 0.08, 0.13, 0.02, 12)
    for i in range(3):
        chair(mesh, -0.95 + 0.75 * i, -1.05, False)
        chair(mesh, -0.95 + 0.75 * i, 0.65, True)
    # a shelf of books on the back wall
    mesh.use("wood")
    for y in (0.4, 0.8, 1.2, 1.6):
        mesh.box(-2.6, y, -2.48, 2.2, 0.03, 0.3)
    mesh.box(-2.63, 0, -2.48, 0.03, 1.9, 0.3)
    mesh.box(-0.4, 0, -2.48, 0.03, 1.9, 0.3)
    for row, y in enumerate((0.43, 0.83, 1.23)):
        x = -2.58
        for i in range(14):
            w = 0.08 + 0.02 * ((i * 7 + row * 3) % 4)
            h = 0.22 + 0.02 * ((i * 5 + row) % 6)
            mesh.use(("red", "green", "cloth", "gold")[(i + row) % 4])
            mesh.box(x, y, -2.44, w, h, 0.2)
            x += w + 0.015
    # a sofa
    mesh.use("cloth")
    mesh.box(1.0, 0, -2.3, 1.8, 0.42, 0.8)
    mesh.box(1.0, 0.42, -2.3, 1.8, 0.4, 0.2)
    mesh.box(0.85, 0, -2.3, 0.15, 0.6, 0.8)
    mesh.box(2.8, 0, -2.3, 0.15, 0.6, 0.8)
    # a vase and the body of the chandelier
    mesh.use("china")
    mesh.prism(2.4, 0, 1.6, 0.12, 0.2, 0.6, 20)
    mesh.use("gold")
    mesh.prism(0, 2.2, 0, 0.05, 0.12, 0.08, 16)
    mesh.box(-0.01, 2.28, -0.01, 0.02, 0.52, 0.02)
    return mesh


MATERIALS = """\
# Matte walls and cloth, and wood, china and gold with highlights.
newmtl floor
Kd 0.62 0.55 0.48
newmtl wall
Kd 0.78 0.77 0.74
newmtl red
Kd 0.6 0.16 0.12
newmtl green
Kd 0.2 0.45 0.22
newmtl cloth
Kd 0.25 0.3 0.5
newmtl wood
Kd 0.45 0.3 0.18
Ks 0.15 0.15 0.15
Ns 40
newmtl china
Kd 0.8 0.8 0.82
Ks 0.3 0.3 0.3
Ns 120
newmtl gold
Kd 0.5 0.38 0.12
Ks 0.5 0.4 0.2
Ns 60
"""


def lights():
    lines = ["# 144 bulbs of the chandelier, 40 lamps along the walls, a window, and the evening sun."]
    for ring in range(4):
        radius = 0.2 + 0.12 * ring
        for i in range(36):
            angle = 2 * math.pi * (i + 0.25 * ring) / 36
            lines.append(f"point {radius * math.cos(angle):.4f} {2.1 - 0.03 * ring:.4f} {radius * math.sin(angle):.4f} 0.0050 0.0042 0.0030")
    for i in range(20):
        x = -2.85 + 0.3 * i
        lines.append(f"point {x:.4f} 2.6000 -2.4000 0.0028 0.0030 0.0040")
        lines.append(f"point {x:.4f} 2.6000 2.4000 0.0028 0.0030 0.0040")
    lines.append("area -1.2 1.2 2.49 0 1.2 0 2.4 0 0 0.30 0.36 0.45 256")
    lines.append("sun -0.3 0.8 0.6 0.0040 0.0030 0.0018")
    return "\n".join(lines) + "\n"


JOB = """\
# Run it in the folder above this one: names are relative to the folder that the program is run in.
scene scenes/room.obj
lights scenes/room.lights
picture room.ppm
bounds room.lcb
eye 2.2 1.7 2.3
at -0.5 0.9 -0.6
view 0.75
size 160 120
error 20
cut 60
white 0.1600
"""


if __name__ == "__main__":
    write_scene("room", build(), MATERIALS, lights(), JOB)

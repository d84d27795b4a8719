"""An OBJ text that grows by flat and smooth shapes, and the writing of a scene's four texts beside this file."""
import math
import os

HERE = os.path.dirname(os.path.abspath(__file__))


class Mesh:
    """An OBJ text that grows by boxes, prisms, quadrilaterals and sheets with normals at their corners."""

    def __init__(self, title, library):
        self.lines = [f"# {title}", f"mtllib {library}"]
        self.count = 0
        self.normals = 0
        self.triangles = 0

    def use(self, name):
        self.lines.append(f"usemtl {name}")

    def vertices(self, points):
        first = self.count + 1
        for x, y, z in points:
            self.lines.append(f"v {x:.4f} {y:.4f} {z:.4f}")
        self.count += len(points)
        return first

    def face(self, *corners):
        self.lines.append("f " + " ".join(str(c) for c in corners))
        self.triangles += len(corners) - 2

    def polygon(self, *points):
        first = self.vertices(points)
        self.face(*range(first, first + len(points)))

    def box(self, x, y, z, w, h, d):
        self.block([(x + dx * w, y + dy * h, z + dz * d) for dy in (0, 1) for dx, dz in ((0, 0), (1, 0), (1, 1), (0, 1))])

    def block(self, corners):
        """The six sides of a box, by its lower four corners and then its upper four."""
        k = self.vertices(corners)
        for side in ((0, 1, 2, 3), (7, 6, 5, 4), (0, 4, 5, 1), (1, 5, 6, 2), (2, 6, 7, 3), (3, 7, 4, 0)):
            self.face(*(k + c for c in side))

    def prism(self, x, y, z, radius, top, height, sides):
        """A round body on a regular polygon, which narrows or widens to another radius."""
        ring = [(math.cos(2 * math.pi * i / sides), math.sin(2 * math.pi * i / sides)) for i in range(sides)]
        k = self.vertices([(x + radius * c, y, z + radius * s) for c, s in ring] + [(x + top * c, y + height, z + top * s) for c, s in ring])
        for i in range(sides):
            j = (i + 1) % sides
            self.face(k + i, k + sides + i, k + sides + j, k + j)
        self.face(*(k + sides + i for i in reversed(range(sides))))

    def sheet(self, rows):
        """A smooth surface over rows of pairs of a place and a normal. A row of one pair is a pole."""
        corners = []
        for row in rows:
            first = self.vertices([place for place, _ in row])
            for _, (x, y, z) in row:
                self.lines.append(f"vn {x:.3f} {y:.3f} {z:.3f}")
            corners.append([f"{first + i}//{self.normals + 1 + i}" for i in range(len(row))])
            self.normals += len(row)
        for low, high in zip(corners, corners[1:]):
            columns = max(len(low), len(high))
            low, high = (row if len(row) > 1 else row * columns for row in (low, high))
            for i in range(columns - 1):
                self.face(*dict.fromkeys((low[i], high[i], high[i + 1], low[i + 1])))


def write_scene(name, mesh, materials, lights, job):
    texts = {"obj": "\n".join(mesh.lines) + "\n", "mtl": materials, "lights": lights, "txt": job}
    for kind, text in texts.items():
        with open(os.path.join(HERE, f"{name}.{kind}"), "w", newline="\n") as file:
            file.write(text)
    print(f"{mesh.triangles} triangles")

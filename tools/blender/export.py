"""Writes the scene of a Blender file as a job of lightcuts:

    blender -b FILE -P tools/blender/export.py -- FOLDER [SAMPLES]

puts scene.obj, scene.mtl, scene.lights and scene.txt into FOLDER, which is made where it is not there. Run the
program in FOLDER: `lightcuts render scene.txt`. An area light becomes SAMPLES samples, 256 where none are named, and
fewer where all lights together would pass 65,536.

The scene is what a render of the file would show: objects, instances, modifiers and their levels are those of a
render. Blender's upward z is y here, and its y is -z. docs/FORMATS.md says how the files are written, and
docs/USAGE.md ("From Blender") which units lights have and what does not carry over. What a scene has and the files do
not is named on standard error, a line for each reason. The status is 1 where no surface, no light or no file comes out.
"""
import math
import os
import re
import sys
import traceback

import bpy

PLACE = 5000.0  # greatest coordinate
INTENSITY = 10000.0  # greatest intensity of a light
TRIANGLES = 1000000  # of a scene, and of its places and of its normals
MATERIALS = 4096
LIGHTS = 65536  # of a file, an area light counted as its samples
SAMPLES = 4096  # of an area light
PIXELS = 4096  # on a side of the picture
# without surfaces, or with a mesh that Blender hands over as an instance of its own
SILENT = {"EMPTY", "CAMERA", "ARMATURE", "LATTICE", "SPEAKER", "CURVE", "SURFACE", "FONT", "META"}

notes = {}  # why something is left out or changed, and of what


def note(reason, name):
    names = notes.setdefault(reason, [])
    if name not in names:
        names.append(name)


def upright(v):
    """A place or direction of Blender with y up in the place of z."""
    return v[0], v[2], -v[1]


def spelled(numbers):
    """Decimals in steps of 1/10000, without the sign of a zero."""
    return " ".join(re.sub(r"^-(0\.0+)$", r"\1", f"{x:.4f}") for x in numbers)


def inside(numbers, limit=PLACE):
    return all(abs(x) <= limit for x in numbers)


def value(socket):
    """The number or colour of a socket: its own, or that of a plain node it is linked to; None behind other links."""
    if not socket.is_linked:
        return socket.default_value
    node = socket.links[0].from_node
    plain = "RGB" if socket.type == "RGBA" else "VALUE"
    return node.outputs[0].default_value if node.type == plain else None


def node_before(tree, target):
    """The shader that the active output of a node tree shows."""
    output = tree.get_output_node(target)
    surface = output.inputs["Surface"] if output else None
    return surface.links[0].from_node if surface and surface.is_linked else None


class Palette:
    """The materials of the scene under names of their own, each with its colour."""

    def __init__(self):
        self.colours = {}
        self.names = {}

    def name_of(self, material):
        if material not in self.names:
            plain = re.sub(r"[\x00-\x1f\x7f\\]", "_", material.name).strip() if material else "default"
            name, count = plain or "_", 1
            while name in self.colours:
                count += 1
                name = f"{plain}.{count}"
            if len(self.colours) >= MATERIALS:
                note(f"more than {MATERIALS} materials: grey is written for", name)
                colour = None
            else:
                colour = base_colour(material) if material else (0.8, 0.8, 0.8)
            self.names[material] = name
            self.colours[name] = colour
        return self.names[material]

    def text(self):
        lines = ["# written by tools/blender/export.py"]
        for name, colour in self.colours.items():
            if colour:
                lines += [f"newmtl {name}", "Kd " + spelled(min(max(x, 0.0), 1.0) for x in colour)]
        return "\n".join(lines) + "\n"


def base_colour(material):
    """The share of light that a material sends back matte. What it does beside that is noted."""
    if not material.use_nodes:
        return material.diffuse_color[:3]
    node = node_before(material.node_tree, "CYCLES")
    kind = node.type if node else "none"
    if kind == "BSDF_PRINCIPLED":
        return principled(material, node)
    if kind == "BSDF_DIFFUSE":
        return coloured(material, node.inputs["Color"])
    if kind == "EMISSION":
        note("light of shining surfaces is left out, of materials", material.name)
        return 0.0, 0.0, 0.0
    note("no plain Principled or Diffuse surface, the viewport's colour is written for materials", material.name)
    return material.diffuse_color[:3]


def coloured(material, socket):
    colour = value(socket)
    if colour is None:
        note("textures are left out, the viewport's colour is written for materials", material.name)
        return material.diffuse_color[:3]
    return colour[:3]


def principled(material, node):
    """The matte share of a Principled surface: neither its metallic nor its transmitting part."""
    def share(name, default=0.0):
        socket = node.inputs.get(name)
        if socket is None:
            return default
        number = value(socket)
        if number is None:
            note(f"a linked {name} is left out, of materials", material.name)
            return default
        return number

    names = node.inputs.keys()
    shines = share("Emission Strength") if "Emission Strength" in names else 1.0
    glow = node.inputs.get("Emission") or node.inputs.get("Emission Color")
    if glow and shines and (glow.is_linked or any(glow.default_value[:3])):
        note("light of shining surfaces is left out, of materials", material.name)
    shining = ("Specular", "Specular IOR Level", "Metallic", "Sheen", "Clearcoat")
    if any(share(name) for name in names if name in shining):
        note("highlights are left out, of materials", material.name)
    if any(share(name) for name in names if name in ("Transmission", "Transmission Weight", "Subsurface")):
        note("light through surfaces is left out, of materials", material.name)
    if share("Alpha", 1.0) < 1.0 or node.inputs["Normal"].is_linked:
        note("alpha and normal maps are left out, of materials", material.name)
    matte = (1.0 - share("Metallic")) * (1.0 - share("Transmission"))
    return [x * matte for x in coloured(material, node.inputs["Base Color"])]


class Scene:
    """The text of an OBJ file that grows by objects."""

    def __init__(self, palette):
        self.lines = ["# written by tools/blender/export.py", "mtllib scene.mtl"]
        self.palette = palette
        self.places = 0
        self.normals = 0
        self.triangles = 0

    def add(self, thing, matrix):
        """The triangles of an object, as Blender divides its faces."""
        mesh = thing.to_mesh()
        if hasattr(mesh, "calc_normals_split"):  # Blender before 4.1
            mesh.calc_normals_split()
        mesh.calc_loop_triangles()
        places = [upright(matrix @ v.co) for v in mesh.vertices]
        known, loops = corner_normals(mesh, matrix.to_3x3().inverted_safe().transposed())
        sums = (self.triangles + len(mesh.loop_triangles), self.places + len(places), self.normals + len(known))
        if not all(map(inside, places)):
            note(f"a coordinate above {PLACE:.0f}: left out are the objects", thing.name)
        elif max(sums) > TRIANGLES:
            note(f"more than {TRIANGLES} triangles, places or normals: left out are the objects", thing.name)
        else:
            self.lines.append("o " + re.sub(r"[\x00-\x1f\x7f\\]", "_", thing.name))
            self.lines += ["v " + spelled(place) for place in places]
            self.lines += ["vn " + text for text in known]
            self.put_faces(thing, mesh, loops)
            self.triangles, self.places, self.normals = sums
        thing.to_mesh_clear()

    def put_faces(self, thing, mesh, loops):
        names = [self.palette.name_of(slot.material) for slot in thing.material_slots] or [self.palette.name_of(None)]
        used = None
        for triangle in mesh.loop_triangles:
            name = names[min(triangle.material_index, len(names) - 1)]
            if name != used:
                self.lines.append("usemtl " + name)
                used = name
            corners = [str(self.places + v + 1) for v in triangle.vertices]
            if triangle.use_smooth or own_normals(mesh):
                corners = [f"{v}//{self.normals + loops[loop] + 1}" for v, loop in zip(corners, triangle.loops)]
            self.lines.append("f " + " ".join(corners))

    def text(self):
        return "\n".join(self.lines) + "\n"


def own_normals(mesh):
    """Whether flat faces too are rendered by the normals of their corners."""
    return getattr(mesh, "use_auto_smooth", False)


def corner_normals(mesh, turned):
    """The normals of all corners of a mesh with smooth faces: each once, and for each corner which of these it has."""
    if not own_normals(mesh) and not any(p.use_smooth for p in mesh.polygons):
        return {}, []
    known = {}
    texts = (spelled(upright((turned @ loop.normal).normalized())) for loop in mesh.loops)
    return known, [known.setdefault(text, len(known)) for text in texts]


def light_colour(light):
    """Colour by power of a light, and by its Emission node where it has one; None where other nodes make it."""
    colour = [x * light.energy for x in light.color]
    if not light.use_nodes or light.node_tree is None:
        return colour
    node = node_before(light.node_tree, "CYCLES")
    if node is None or node.type != "EMISSION":
        return None
    tint, strength = value(node.inputs["Color"]), value(node.inputs["Strength"])
    return None if tint is None or strength is None else [x * t * strength for x, t in zip(colour, tint)]


def intensity(name, colour, divisor):
    """The three fields of an intensity, or None where a light file refuses them or they are all 0."""
    numbers = [x / divisor for x in colour]
    if min(numbers) < 0:
        note("a power below 0: left out are the lights", name)
    elif max(numbers) > INTENSITY:
        note(f"an intensity above {INTENSITY:.0f}: left out are the lights", name)
    elif max(numbers) < 0.00005:
        note("an intensity that rounds to 0: left out are the lights", name)
    else:
        if any(0 < x < 0.005 for x in numbers):
            note("an intensity below 0.005, of which rounding may take more than 1 %: the lights", name)
        return spelled(numbers)
    return None


def point_line(name, light, matrix, colour):
    place = upright(matrix.translation)
    fields = intensity(name, colour, 4.0 * math.pi ** 2)
    if not inside(place):
        note(f"a coordinate above {PLACE:.0f}: left out are the lights", name)
        return None
    if light.shadow_soft_size > 0:
        note("the radius is left out, shadows are sharp, of lights", name)
    return fields and f"point {spelled(place)} {fields}"


def sun_line(name, light, matrix, colour):
    toward = upright(matrix.col[2].xyz.normalized() * 1000.0)
    fields = intensity(name, colour, math.pi)
    if light.angle > 0:
        note("the angle is left out, shadows are sharp, of suns", name)
    if not any(toward):
        note("no direction: left out are the lights", name)
        return None
    return fields and f"sun {spelled(toward)} {fields}"


def area_line(name, light, matrix, colour):
    """The line of an area light but for its number of samples."""
    a = matrix.col[0].xyz * light.size
    b = matrix.col[1].xyz * (light.size_y if light.shape in ("RECTANGLE", "ELLIPSE") else light.size)
    if light.shape in ("DISK", "ELLIPSE"):
        note("a round area light is written as a rectangle of the same area: the lights", name)
        a, b = a * math.sqrt(math.pi) / 2.0, b * math.sqrt(math.pi) / 2.0
    if light.spread < math.pi - 0.001:
        note("the spread is left out, light goes to all of one side, of lights", name)
    corner = matrix.translation - (a + b) / 2.0
    if a.cross(b).dot(matrix.col[2].xyz) > 0:
        a, b = b, a
    corner, a, b = (upright(v) for v in (corner, a, b))
    ends = [[sum(x) for x in zip(corner, *sides)] for sides in ((), (a,), (b,), (a, b))]
    if not all(inside(end, PLACE - 0.001) for end in ends):
        note(f"a coordinate above {PLACE:.0f}: left out are the lights", name)
        return None
    u, v = ([round(x * 10000) for x in side] for side in (a, b))
    if not any(u[i] * v[j] - u[j] * v[i] for i, j in ((1, 2), (2, 0), (0, 1))):
        note("no area: left out are the lights", name)
        return None
    fields = intensity(name, colour, 4.0 * math.pi)
    return fields and f"area {spelled(corner)} {spelled(a)} {spelled(b)} {fields}"


class Lights:
    """The lines of a light file, by kind."""

    def __init__(self):
        self.single = []
        self.areas = []

    def add(self, thing, matrix):
        light = thing.data
        makers = {"POINT": point_line, "SUN": sun_line, "AREA": area_line}
        cycles = getattr(light, "cycles", None)
        if light.type not in makers or getattr(cycles, "is_portal", False):
            note("no kind of light that is written: left out are the lights", thing.name)
            return
        colour = light_colour(light)
        if colour is None:
            note("nodes that are no plain Emission: left out are the lights", thing.name)
            return
        if not getattr(cycles, "cast_shadow", True):
            note("without shadows there, with shadows here: the lights", thing.name)
        line = makers[light.type](thing.name, light, matrix, colour)
        if line and len(self.single) + len(self.areas) >= LIGHTS:
            note(f"more than {LIGHTS} lights: left out are the lights", thing.name)
        elif line:
            (self.areas if light.type == "AREA" else self.single).append(line)

    def text(self, samples):
        if self.areas:
            most = (LIGHTS - len(self.single)) // len(self.areas)
            if most < samples:
                note("samples of an area light, for the limit of all lights", str(most))
            samples = min(most, samples)
        lines = ["# written by tools/blender/export.py"] + self.single + [f"{line} {samples}" for line in self.areas]
        return "\n".join(lines) + "\n"


def camera_lines(scene, camera):
    """The lines of a job that say where the camera is, or None where it has no such lines."""
    lens = camera.data
    if lens.type != "PERSP":
        note("no job is written, as it has no perspective: the camera", camera.name)
        return None
    matrix = camera.matrix_world
    eye, ahead, up = matrix.translation, -matrix.col[2].xyz.normalized(), matrix.col[1].xyz.normalized()
    frame = lens.view_frame(scene=scene)
    view = (max(v.x for v in frame) - min(v.x for v in frame)) / 2.0 / -frame[0].z
    far = next((d for d in (1000.0, 100.0, 10.0, 1.0) if inside(upright(eye + ahead * d))), None)
    if not inside(upright(eye)) or far is None or not 0.0001 <= view <= 10.0 or not ahead.cross(up).length:
        note("no job is written, as its place or its lens is out of range: the camera", camera.name)
        return None
    if lens.shift_x or lens.shift_y or lens.dof.use_dof:
        note("shift and depth of field are left out, of the camera", camera.name)
    render = scene.render
    if render.pixel_aspect_x != render.pixel_aspect_y or render.use_border:
        note("pixels are square and the whole frame is rendered, of the scene", scene.name)
    sides = [max(1, side * render.resolution_percentage // 100) for side in (render.resolution_x, render.resolution_y)]
    if max(sides) > PIXELS:
        note(f"a picture of at most {PIXELS} pixels on a side is written, of the scene", scene.name)
        sides = [max(1, side * PIXELS // max(sides)) for side in sides]
    return [f"eye {spelled(upright(eye))}", f"at {spelled(upright(eye + ahead * far))}",
            f"up {spelled(upright(up * 1000.0))}", f"view {view:.4f}", f"size {sides[0]} {sides[1]}"]


def job_text(scene, camera):
    """The text of the job, or None where the camera has no lines."""
    lines = camera_lines(scene, camera)
    if lines is None:
        return None
    files = ["scene scene.obj", "lights scene.lights", "picture scene.ppm", "bounds scene.lcb"]
    seed = getattr(getattr(scene, "cycles", None), "seed", 0)
    white = min(max(2.0 ** -scene.view_settings.exposure, 0.0001), INTENSITY)
    knobs = [f"seed {max(seed, 0)}", "error 20", "cut 1000", f"white {white:.4f}"]
    first = "# written by tools/blender/export.py; run it in this folder"
    return "\n".join([first] + files + lines + knobs) + "\n"


def gather(depsgraph, mesh, lights):
    """Adds all objects and instances that a render shows."""
    for instance in depsgraph.object_instances:
        thing, matrix = instance.object, instance.matrix_world.copy()
        if not instance.show_self:
            continue
        if thing.type == "LIGHT":
            lights.add(thing, matrix)
        elif thing.type == "MESH":
            flags = ("visible_camera", "visible_diffuse", "visible_shadow")
            if not all(getattr(thing, flag, True) for flag in flags) or thing.is_holdout:
                note("seen and shading without regard to ray visibility: the objects", thing.name)
            mesh.add(thing, matrix)
        elif thing.type not in SILENT:
            note("no mesh: left out are the objects", thing.name)


def world_lights(scene):
    """Whether the background may give light."""
    if scene.world is None:
        return False
    if not scene.world.use_nodes:
        return any(scene.world.color)
    node = node_before(scene.world.node_tree, "CYCLES")
    if node is None or node.type != "BACKGROUND":
        return node is not None
    colour, strength = value(node.inputs["Color"]), value(node.inputs["Strength"])
    return strength != 0 and (colour is None or any(colour[:3]))


class Export(bpy.types.RenderEngine):
    """Blender hands the scene as a render sees it to an engine alone, so the export is one."""

    bl_idname = "LIGHTCUTS_EXPORT"
    bl_label = "lightcuts export"
    texts = None
    samples = 256
    has_camera = True

    def render(self, depsgraph):
        if Export.texts is None:
            try:
                Export.texts = texts_of(depsgraph)
            except Exception:  # Blender would go on with status 0
                traceback.print_exc()


def texts_of(depsgraph):
    """The texts of the files by their names; none where nothing can be rendered."""
    scene, palette, lights = depsgraph.scene, Palette(), Lights()
    mesh = Scene(palette)
    gather(depsgraph, mesh, lights)
    if world_lights(scene):
        note("light of the background is left out, of the world", scene.world.name)
    if mesh.triangles == 0 or not lights.single + lights.areas:
        note("nothing is written, as no surface or no light is left, of the scene", scene.name)
        return {}
    texts = {"scene.obj": mesh.text(), "scene.mtl": palette.text(), "scene.lights": lights.text(Export.samples)}
    if not Export.has_camera:
        note("no job is written, as there is no camera, of the scene", scene.name)
        return texts
    job = job_text(scene, depsgraph.scene.camera)
    return {**texts, "scene.txt": job} if job else texts


def render_texts(scene):
    """What a render of the scene hands to the export."""
    bpy.utils.register_class(Export)
    scene.render.engine = Export.bl_idname
    scene.render.use_compositing = scene.render.use_sequencer = False
    Export.has_camera = scene.camera is not None
    if scene.camera is None:
        scene.camera = bpy.data.objects.new("camera", bpy.data.cameras.new("camera"))
        scene.collection.objects.link(scene.camera)
    bpy.ops.render.render()
    return Export.texts


def main(words):
    number = words[1] if len(words) == 2 else "256"
    if len(words) not in (1, 2) or not number.isdecimal() or not 1 <= int(number) <= SAMPLES:
        print("usage: blender -b FILE -P export.py -- FOLDER [SAMPLES]", file=sys.stderr)
        return 2
    Export.samples = int(number)
    texts = render_texts(bpy.context.scene)
    for reason, names in notes.items():
        print(f"{reason}: {', '.join(names)}", file=sys.stderr)
    if not texts:
        return 1
    os.makedirs(words[0], exist_ok=True)
    for name, text in texts.items():
        with open(os.path.join(words[0], name), "w", encoding="utf-8", errors="replace", newline="\n") as file:
            file.write(text)
    return 0


if __name__ == "__main__":
    try:
        status = main(sys.argv[sys.argv.index("--") + 1:] if "--" in sys.argv else [])
    except Exception:
        traceback.print_exc()
        status = 1
    sys.exit(status)

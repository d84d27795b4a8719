"""Makes a small matte room, in Blender's own Python:

    blender -b --factory-startup -P tests/blender_room.py -- FOLDER

writes for each of its lights alone and for all together the file NAME.blend into FOLDER, and NAME.floats: the picture
that Cycles makes of it by direct light, as float32 in red, green and blue, rows from the bottom. The room has what an
export has to follow: a turned and a mirrored object, a smooth shape with a modifier, a concave face, an instance of a
collection and an area light whose object is scaled.
"""
import array
import math
import os
import sys

import bpy
from mathutils import Matrix

FOLDER = sys.argv[sys.argv.index("--") + 1]
SCENE = bpy.context.scene
CASES = {"point": ["point"], "sun": ["sun"], "area": ["area"], "all": ["point", "sun", "area"]}


def matte(name, colour):
    material = bpy.data.materials.new(name)
    material.use_nodes = True
    tree = material.node_tree
    tree.nodes.clear()
    shader = tree.nodes.new("ShaderNodeBsdfDiffuse")
    shader.inputs["Color"].default_value = (*colour, 1.0)
    tree.links.new(shader.outputs[0], tree.nodes.new("ShaderNodeOutputMaterial").inputs["Surface"])
    return material


def thing(name, places, faces, material, matrix=Matrix()):
    mesh = bpy.data.meshes.new(name)
    mesh.from_pydata(places, [], faces)
    mesh.materials.append(material)
    made = bpy.data.objects.new(name, mesh)
    made.matrix_world = matrix
    SCENE.collection.objects.link(made)
    return made


def block(name, low, high, material, matrix=Matrix(), sides=None):
    places = [(x, y, z) for z in (low[2], high[2]) for x, y in
              ((low[0], low[1]), (high[0], low[1]), (high[0], high[1]), (low[0], high[1]))]
    faces = sides or [(0, 1, 2, 3), (4, 5, 6, 7), (0, 1, 5, 4), (1, 2, 6, 5), (2, 3, 7, 6), (3, 0, 4, 7)]
    return thing(name, places, faces, material, matrix)


def furnish():
    walls, wood = matte("walls", (0.7, 0.68, 0.6)), matte("wood", (0.5, 0.3, 0.15))
    red = matte("red # 1", (0.6, 0.1, 0.1))
    # open above, where the sun comes in, and toward the camera
    block("room", (-3, -3, 0), (3, 3, 3), walls, sides=[(0, 1, 2, 3), (1, 2, 6, 5), (2, 3, 7, 6), (3, 0, 4, 7)])
    turned = Matrix.Translation((-1.2, 0.8, 0)) @ Matrix.Rotation(0.6, 4, "Z")
    block("box", (-0.5, -0.5, 0), (0.5, 0.5, 1.2), wood, turned)
    corner = [(0, 0, 0), (1.6, 0, 0), (1.6, 0.4, 0), (0.4, 0.4, 0), (0.4, 1.6, 0), (0, 1.6, 0)]
    shelf = Matrix.Translation((2.9, 2.9, 1.3)) @ Matrix.Diagonal((-1, -1, 1, 1)) @ Matrix.Diagonal((1, -1, 1, 1))
    thing("shelf", [(x, -y, z) for x, y, z in corner], [tuple(range(6))], red, shelf)
    ball = block("ball", (-0.6, -0.6, -0.6), (0.6, 0.6, 0.6), red, Matrix.Translation((1.0, 0.2, 0.6)))
    levels = ball.modifiers.new("levels", "SUBSURF")
    levels.levels, levels.render_levels = 0, 3
    for face in ball.data.polygons:
        face.use_smooth = True
    instance(wood)


def instance(material):
    group = bpy.data.collections.new("group")
    leg = block("leg", (-0.1, -0.1, 0), (0.1, 0.1, 0.9), material)
    SCENE.collection.objects.unlink(leg)
    group.objects.link(leg)
    for number, x in enumerate((-0.4, 0.2)):
        empty = bpy.data.objects.new(f"legs {number}", None)
        empty.instance_type, empty.instance_collection = "COLLECTION", group
        empty.matrix_world = Matrix.Translation((x, -1.2, 0)) @ Matrix.Rotation(number * 0.4, 4, "Y")
        SCENE.collection.objects.link(empty)


def light(name, kind, energy, colour, matrix):
    data = bpy.data.lights.new(name, kind)
    data.energy, data.color = energy, colour
    made = bpy.data.objects.new(name, data)
    made.matrix_world = matrix
    made.visible_camera = False
    SCENE.collection.objects.link(made)
    return data


def lights():
    place = Matrix.Translation((-0.3, -0.9, 2.2))
    light("point", "POINT", 150.0, (1.0, 0.8, 0.5), place).shadow_soft_size = 0.0
    slant = Matrix.Rotation(-0.5, 4, "Y") @ Matrix.Rotation(0.7, 4, "X")
    light("sun", "SUN", 2.0, (1.0, 0.9, 0.7), slant).angle = 0.0
    panel = Matrix.Translation((1.2, 0.9, 2.8)) @ Matrix.Rotation(0.3, 4, "X") @ Matrix.Diagonal((2.0, 1.0, 1.0, 1.0))
    area = light("area", "AREA", 120.0, (0.6, 0.8, 1.0), panel)
    area.shape, area.size, area.size_y = "RECTANGLE", 0.7, 0.9


def camera():
    data = bpy.data.cameras.new("camera")
    data.lens = 26.0
    made = bpy.data.objects.new("camera", data)
    made.matrix_world = Matrix.Translation((0.3, -5.5, 1.9)) @ Matrix.Rotation(math.radians(84), 4, "X")
    SCENE.collection.objects.link(made)
    SCENE.camera = made


def settings():
    render, cycles = SCENE.render, SCENE.cycles
    render.engine, render.resolution_x, render.resolution_y, render.resolution_percentage = "CYCLES", 160, 120, 50
    cycles.device, cycles.samples, cycles.seed = "CPU", 400, 1
    cycles.use_adaptive_sampling = cycles.use_denoising = False
    cycles.max_bounces = 0
    cycles.light_sampling_threshold = cycles.sample_clamp_direct = cycles.sample_clamp_indirect = 0.0
    cycles.pixel_filter_type, cycles.filter_width = "BOX", 1.0
    SCENE.world = bpy.data.worlds.new("world")
    SCENE.world.color = (0.0, 0.0, 0.0)
    render.image_settings.file_format, render.image_settings.color_depth = "OPEN_EXR", "32"


def floats(name):
    """Renders by Cycles and keeps the colours of the picture."""
    SCENE.render.filepath = os.path.join(FOLDER, name + ".exr")
    bpy.ops.render.render(write_still=True)
    picture = bpy.data.images.load(SCENE.render.filepath)
    pixels = array.array("f", picture.pixels[:])
    colours = array.array("f", [x for i in range(0, len(pixels), 4) for x in pixels[i:i + 3]])
    with open(os.path.join(FOLDER, name + ".floats"), "wb") as file:
        colours.tofile(file)
    bpy.data.images.remove(picture)


for old in list(bpy.data.objects):
    bpy.data.objects.remove(old)
furnish()
lights()
camera()
settings()
for case, shown in CASES.items():
    for lamp in CASES["all"]:
        bpy.data.objects[lamp].hide_render = lamp not in shown
    floats(case)
    bpy.ops.wm.save_as_mainfile(filepath=os.path.join(os.path.abspath(FOLDER), case + ".blend"))

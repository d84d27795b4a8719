#!/usr/bin/env python3
"""Turns a job into the same scene for other programs:

    convert.py JOB POV FLOATS

reads the job, whose scene has faces of `v` or `v//vn` or `v/vt`, one library without highlights and points of light alone,
in the current folder, and writes POV-Ray's scene and the numbers for embree.c.

A point of intensity I at the distance d gives a matte surface Kd * cos * I / d^2 in all three. POV-Ray fades a light by
2 / (1 + (d / f)^2): with f = 0.01 and the colour 5000 * I that is I / (d^2 + 0.0001). Its colours are divided by the
job's white, and embree.c's are not.
"""
import array
import math
import sys


def minus(a, b):
    return [x - y for x, y in zip(a, b)]


def cross(a, b):
    return [a[1] * b[2] - a[2] * b[1], a[2] * b[0] - a[0] * b[2], a[0] * b[1] - a[1] * b[0]]


def unit(a):
    length = math.sqrt(sum(x * x for x in a))
    return [x / length for x in a] if length else a


def spoken(name):
    """The fields of the lines of a text that have one."""
    with open(name, encoding="utf-8") as file:
        for line in file:
            fields = line.split("#")[0].split()
            if fields:
                yield fields


def job_of(name):
    return {fields[0]: fields[1:] for fields in spoken(name)}


def colours_of(name):
    colours = {}
    for key, *rest in spoken(name):
        if key == "newmtl":
            last = rest[0]
            colours[last] = (0.8, 0.8, 0.8)
        elif key == "Kd":
            colours[last] = [float(x) for x in rest]
        elif key == "Ks" and any(float(x) for x in rest):
            sys.exit(f"{name}: a highlight")
    return colours


def mesh_of(name):
    """Triangles, each by its corners, their normals and the name of its material, and the names of the libraries."""
    places, normals, triangles, libraries, material = [], [], [], [], None
    for key, *rest in spoken(name):
        if key in ("v", "vn"):
            (places if key == "v" else normals).append([float(x) for x in rest])
        elif key == "mtllib":
            libraries += rest
        elif key == "usemtl":
            material = rest[0]
        elif key == "f":
            corners = [(corner.split("/") + ["", ""])[:3] for corner in rest]
            for second, third in zip(corners[1:], corners[2:]):
                three = (corners[0], second, third)
                at = [places[int(corner[0]) - 1] for corner in three]
                flat = cross(minus(at[1], at[0]), minus(at[2], at[0]))
                if any(flat):
                    leads = [normals[int(n) - 1] if n else flat for _, _, n in three]
                    triangles.append((at, [unit(lead) for lead in leads], all(n for _, _, n in three), material))
    return triangles, libraries


def lights_of(name):
    lights = []
    for kind, *numbers in spoken(name):
        if kind != "point":
            sys.exit(f"{name}: a light that is no point")
        lights.append([float(x) for x in numbers])
    return lights


def camera_of(job):
    """Place, the directions ahead, right and up, and half the width of what is seen at the distance 1."""
    eye, at = ([float(x) for x in job[key]] for key in ("eye", "at"))
    ahead = unit(minus(at, eye))
    right = unit(cross(ahead, [float(x) for x in job.get("up", (0, 1, 0))]))
    return eye, ahead, right, cross(right, ahead), float(job.get("view", ["0.5"])[0])


def povray(job, triangles, colours, lights):
    """POV-Ray's text, with a triangle for each: a mesh takes longer there."""
    def vector(numbers):
        return "<" + ",".join(f"{x:.7g}" for x in numbers) + ">"

    width, height = map(int, job["size"])
    white = float(job.get("white", ["1"])[0])
    eye, ahead, right, up, view = camera_of(job)
    across, along = ([x * 2 * view * share for x in side] for side, share in ((right, 1), (up, height / width)))
    yield "#version 3.7;\nglobal_settings { assumed_gamma 1.0 max_trace_level 1 adc_bailout 0 ambient_light rgb 0 }"
    yield f"camera {{ perspective location {vector(eye)} direction {vector(ahead)}"
    yield f"right {vector(across)} up {vector(along)} }}"
    for light in lights:
        colour = vector(5000 * x / white for x in light[3:])
        yield f"light_source {{ {vector(light[:3])} rgb {colour} fade_distance 0.01 fade_power 2 }}"
    for name, colour in colours.items():
        yield (f"#declare M_{name} = texture {{ pigment {{ rgb {vector(colour)} }} "
               "finish { ambient 0 emission 0 diffuse 1 } }")
    for corners, normals, smooth, material in triangles:
        vectors = [v for pair in zip(corners, normals) for v in pair] if smooth else corners
        kind = "smooth_triangle" if smooth else "triangle"
        yield f"{kind} {{ {','.join(map(vector, vectors))} texture {{ M_{material} }} }}"


def floats(job, triangles, colours, lights):
    """The bytes that embree.c reads: four whole numbers, the camera, the triangles and the lights."""
    counts = array.array("i", [len(triangles), len(lights), *map(int, job["size"])])
    eye, ahead, right, up, view = camera_of(job)
    numbers = array.array("f", [*eye, *ahead, *right, *up, view])
    for corners, normals, _, material in triangles:
        flat = unit(cross(minus(corners[1], corners[0]), minus(corners[2], corners[0])))
        numbers.extend([x for v in (*corners, *normals, flat, colours[material]) for x in v])
    for light in lights:
        numbers.extend(light)
    return counts.tobytes() + numbers.tobytes()


def main(job_name, pov_name, floats_name):
    job = job_of(job_name)
    triangles, libraries = mesh_of(job["scene"][0])
    colours = colours_of(libraries[0])
    lights = lights_of(job["lights"][0])
    with open(pov_name, "w", encoding="utf-8") as file:
        file.writelines(line + "\n" for line in povray(job, triangles, colours, lights))
    with open(floats_name, "wb") as file:
        file.write(floats(job, triangles, colours, lights))


if __name__ == "__main__":
    main(*sys.argv[1:])

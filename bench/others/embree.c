/* The exact sum over all points of light in floats, by Embree's rays, on one thread:
 *
 *     embree FLOATS PICTURE
 *
 * reads what convert.py writes, and writes three float32 for each pixel, rows from the top. A ray for each pixel, and for
 * each light in front of the surface that it hits a ray that asks whether anything is between. */
#include <embree3/rtcore.h>
#include <math.h>
#include <pmmintrin.h>
#include <stdio.h>
#include <stdlib.h>
#include <string.h>
#include <xmmintrin.h>

typedef struct { float corners[9], normals[9], flat[3], colour[3]; } Triangle;
typedef struct { float place[3], intensity[3]; } Light;
typedef struct { float eye[3], ahead[3], right[3], up[3], view; } Camera;
typedef struct { float place[3], normal[3], colour[3]; } Spot;

static int triangle_count, light_count, width, height;
static Camera camera;
static Triangle *triangles;
static Light *lights;
static RTCScene scene;
static struct RTCIntersectContext context;

static float dot(const float *a, const float *b) { return a[0] * b[0] + a[1] * b[1] + a[2] * b[2]; }

static int read_all(const char *name) {
    FILE *file = fopen(name, "rb");
    int counts[4];
    if (!file || fread(counts, sizeof counts, 1, file) != 1 || fread(&camera, sizeof camera, 1, file) != 1) return 0;
    triangle_count = counts[0], light_count = counts[1], width = counts[2], height = counts[3];
    triangles = malloc(sizeof *triangles * triangle_count);
    lights = malloc(sizeof *lights * light_count);
    int done = fread(triangles, sizeof *triangles, triangle_count, file) == (size_t)triangle_count &&
               fread(lights, sizeof *lights, light_count, file) == (size_t)light_count;
    fclose(file);
    return done;
}

static void build(void) {
    RTCDevice device = rtcNewDevice("threads=1,user_threads=1");
    scene = rtcNewScene(device);
    rtcSetSceneBuildQuality(scene, RTC_BUILD_QUALITY_HIGH);
    RTCGeometry mesh = rtcNewGeometry(device, RTC_GEOMETRY_TYPE_TRIANGLE);
    size_t corners = 3 * (size_t)triangle_count;
    float *places = rtcSetNewGeometryBuffer(mesh, RTC_BUFFER_TYPE_VERTEX, 0, RTC_FORMAT_FLOAT3, 12, corners);
    unsigned *numbers = rtcSetNewGeometryBuffer(mesh, RTC_BUFFER_TYPE_INDEX, 0, RTC_FORMAT_UINT3, 12, triangle_count);
    for (int i = 0; i < triangle_count; i++) memcpy(places + 9 * i, triangles[i].corners, 36);
    for (size_t i = 0; i < corners; i++) numbers[i] = i;
    rtcCommitGeometry(mesh);
    rtcAttachGeometry(scene, mesh);
    rtcReleaseGeometry(mesh);
    rtcCommitScene(scene);
    rtcInitIntersectContext(&context);
}

/* Where the ray of a pixel hits, 16 units of 1/10000 off the surface. */
static int spot_of(int column, int row, Spot *spot) {
    float x = (2 * column + 1 - width) * camera.view / width, y = (height - 2 * row - 1) * camera.view / width;
    float ray[3];
    for (int k = 0; k < 3; k++) ray[k] = camera.ahead[k] + x * camera.right[k] + y * camera.up[k];
    struct RTCRayHit q;
    memset(&q, 0, sizeof q);
    q.ray.org_x = camera.eye[0], q.ray.org_y = camera.eye[1], q.ray.org_z = camera.eye[2];
    q.ray.dir_x = ray[0], q.ray.dir_y = ray[1], q.ray.dir_z = ray[2];
    q.ray.tfar = 1e30f, q.ray.mask = -1, q.hit.geomID = RTC_INVALID_GEOMETRY_ID;
    rtcIntersect1(scene, &context, &q);
    if (q.hit.geomID == RTC_INVALID_GEOMETRY_ID) return 0;
    const Triangle *hit = triangles + q.hit.primID;
    float side = dot(hit->flat, ray) > 0 ? -1 : 1, u = q.hit.u, v = q.hit.v, flat[3];
    for (int k = 0; k < 3; k++) {
        flat[k] = side * hit->flat[k];
        spot->place[k] = camera.eye[k] + q.ray.tfar * ray[k] + 0.0016f * flat[k];
        spot->normal[k] = (1 - u - v) * hit->normals[k] + u * hit->normals[3 + k] + v * hit->normals[6 + k];
        spot->colour[k] = hit->colour[k];
    }
    float scale = (dot(spot->normal, flat) < 0 ? -1 : 1) / sqrtf(dot(spot->normal, spot->normal));
    for (int k = 0; k < 3; k++) spot->normal[k] *= scale;
    return 1;
}

static void sum_at(const Spot *spot, float *sum) {
    for (int i = 0; i < light_count; i++) {
        float to[3];
        for (int k = 0; k < 3; k++) to[k] = lights[i].place[k] - spot->place[k];
        float front = dot(spot->normal, to);
        if (front <= 0) continue;
        struct RTCRay ray;
        ray.org_x = spot->place[0], ray.org_y = spot->place[1], ray.org_z = spot->place[2];
        ray.dir_x = to[0], ray.dir_y = to[1], ray.dir_z = to[2];
        ray.tnear = 0, ray.tfar = 1, ray.time = 0, ray.mask = -1, ray.id = 0, ray.flags = 0;
        rtcOccluded1(scene, &context, &ray);
        if (ray.tfar < 0) continue;
        float square = dot(to, to), factor = front / sqrtf(square) / fmaxf(square, 1e-4f);
        for (int k = 0; k < 3; k++) sum[k] += spot->colour[k] * factor * lights[i].intensity[k];
    }
}

int main(int count, char **words) {
    _MM_SET_FLUSH_ZERO_MODE(_MM_FLUSH_ZERO_ON);
    _MM_SET_DENORMALS_ZERO_MODE(_MM_DENORMALS_ZERO_ON);
    if (count != 3 || !read_all(words[1])) return 1;
    build();
    float *picture = calloc(3 * (size_t)width * height, sizeof *picture);
    Spot spot;
    for (int row = 0; row < height; row++)
        for (int column = 0; column < width; column++)
            if (spot_of(column, row, &spot)) sum_at(&spot, picture + 3 * ((size_t)row * width + column));
    FILE *file = fopen(words[2], "wb");
    return !file || fwrite(picture, 12, (size_t)width * height, file) != (size_t)width * height || fclose(file);
}

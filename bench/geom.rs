// The same loops as the proved program, in plain Rust: exact tests against triangles that keep their normals.
use std::time::Instant;

#[derive(Clone, Copy)]
struct Vec3 {
    x: i64,
    y: i64,
    z: i64,
}

#[derive(Clone, Copy)]
#[repr(C, align(64))]
struct Tri {
    across: [i64; 3],
    a: [i32; 3],
    b: [i32; 3],
    c: [i32; 3],
}

fn difference(a: Vec3, b: Vec3) -> Vec3 {
    Vec3 { x: a.x - b.x, y: a.y - b.y, z: a.z - b.z }
}

fn cross(a: Vec3, b: Vec3) -> Vec3 {
    Vec3 { x: a.y * b.z - a.z * b.y, y: a.z * b.x - a.x * b.z, z: a.x * b.y - a.y * b.x }
}

fn dot(a: Vec3, b: Vec3) -> i128 {
    a.x as i128 * b.x as i128 + a.y as i128 * b.y as i128 + a.z as i128 * b.z as i128
}

fn wide(v: &[i32; 3]) -> Vec3 {
    Vec3 { x: v[0] as i64, y: v[1] as i64, z: v[2] as i64 }
}

impl Tri {
    fn new(a: Vec3, b: Vec3, c: Vec3) -> Tri {
        let narrow = |v: Vec3| [v.x as i32, v.y as i32, v.z as i32];
        let n = cross(difference(b, a), difference(c, a));
        Tri { across: [n.x, n.y, n.z], a: narrow(a), b: narrow(b), c: narrow(c) }
    }

    fn across(&self) -> Vec3 {
        Vec3 { x: self.across[0], y: self.across[1], z: self.across[2] }
    }

    fn side(&self, p: Vec3) -> i128 {
        dot(self.across(), difference(p, wide(&self.a)))
    }

    fn volumes(&self, p: Vec3, d: Vec3) -> [i128; 3] {
        let a = difference(wide(&self.a), p);
        let b = difference(wide(&self.b), p);
        let c = difference(wide(&self.c), p);
        [dot(d, cross(b, c)), dot(d, cross(c, a)), dot(d, cross(a, b))]
    }

    fn blocks(&self, p: Vec3, q: Vec3) -> bool {
        let (s, r) = (self.side(p), self.side(q));
        if !((s < 0 && r > 0) || (s > 0 && r < 0)) {
            return false;
        }
        let [u, v, w] = self.volumes(p, difference(q, p));
        (u >= 0 && v >= 0 && w >= 0) || (u <= 0 && v <= 0 && w <= 0)
    }

    fn depth(&self, e: Vec3, d: Vec3) -> Option<u32> {
        let q = Vec3 { x: e.x + d.x, y: e.y + d.y, z: e.z + d.z };
        if !self.blocks(e, q) {
            return None;
        }
        let s = self.side(e).unsigned_abs();
        let r = self.side(q).unsigned_abs();
        Some(((s << 30) / (s + r)) as u32)
    }
}

fn blocked(triangles: &[Tri], p: Vec3, q: Vec3) -> bool {
    triangles.iter().any(|t| t.blocks(p, q))
}

fn root(n: u128) -> i64 {
    let mut root = (n as f64).sqrt() as u128;
    while root * root > n {
        root -= 1;
    }
    while (root + 1) * (root + 1) <= n {
        root += 1;
    }
    root as i64
}

fn scaled(v: Vec3, l: i64) -> Vec3 {
    let length = root(dot(v, v) as u128);
    if length == 0 {
        return ORIGIN;
    }
    let part = |x: i64| (l as i128 * x as i128 / length as i128) as i64;
    Vec3 { x: part(v.x), y: part(v.y), z: part(v.z) }
}

const ORIGIN: Vec3 = Vec3 { x: 0, y: 0, z: 0 };

struct Random {
    state: u64,
}

struct Spot {
    p: Vec3,
    own: Tri,
}

#[derive(Clone, Copy)]
struct Segment {
    p: Vec3,
    q: Vec3,
    triangle: Tri,
    mark: u32,
}

#[derive(Clone, Copy)]
struct Ray {
    e: Vec3,
    d: Vec3,
    triangle: Tri,
}

fn far(way: Vec3) -> Vec3 {
    Vec3 { x: 16_384 * way.x, y: 16_384 * way.y, z: 16_384 * way.z }
}

impl Random {
    fn number(&mut self, most: u32) -> u32 {
        self.state ^= self.state << 13;
        self.state ^= self.state >> 7;
        self.state ^= self.state << 17;
        (self.state % (most as u64 + 1)) as u32
    }

    fn coordinate(&mut self, most: u32) -> i64 {
        let size = self.number(most) as i64;
        if self.number(1) == 0 { size } else { -size }
    }

    fn vector(&mut self, most: u32) -> Vec3 {
        let x = self.coordinate(most);
        let y = self.coordinate(most);
        let z = self.coordinate(most);
        Vec3 { x, y, z }
    }

    fn place(&mut self) -> Vec3 {
        self.vector(50_000)
    }

    fn direction(&mut self) -> Vec3 {
        scaled(self.place(), 16_384)
    }

    fn around(&mut self, middle: Vec3) -> Tri {
        let u = self.vector(1_900);
        let v = self.vector(1_900);
        let w = difference(difference(ORIGIN, u), v);
        Tri::new(difference(middle, u), difference(middle, v), difference(middle, w))
    }

    fn near(&mut self, place: Vec3) -> Tri {
        let off = self.vector(1_500);
        self.around(difference(place, off))
    }

    fn spot(&mut self) -> Spot {
        let middle = self.place();
        let own = self.around(middle);
        let normal = scaled(own.across(), 16_384);
        Spot { p: difference(middle, scaled(normal, 16)), own }
    }

    fn other(&mut self, number: u32, own: Tri, near: Vec3) -> Tri {
        match number % 4 {
            0 => own,
            1 => self.near(near),
            _ => {
                let middle = self.place();
                self.around(middle)
            }
        }
    }

    fn to_lamp(&mut self, number: u32) -> Segment {
        let spot = self.spot();
        let half = self.vector(25_000);
        let halfway = difference(spot.p, half);
        let triangle = self.other(number, spot.own, halfway);
        Segment { p: spot.p, q: difference(halfway, half), triangle, mark: self.number(1_000_000) }
    }

    fn to_sun(&mut self, number: u32) -> Segment {
        let spot = self.spot();
        let sun = self.direction();
        let triangle = self.other(number, spot.own, difference(spot.p, sun));
        Segment { p: spot.p, q: difference(spot.p, far(sun)), triangle, mark: self.number(1_000_000) }
    }

    fn ray(&mut self, number: u32) -> Ray {
        let spot = self.spot();
        let back = self.direction();
        let triangle = self.other(number, spot.own, difference(spot.p, back));
        Ray { e: spot.p, d: difference(ORIGIN, far(back)), triangle }
    }
}

fn add_blocked(sum: u64, segments: &[Segment]) -> u64 {
    segments.iter().filter(|s| s.triangle.blocks(s.p, s.q)).fold(sum, |total, s| total.wrapping_add(s.mark as u64))
}

fn add_depths(sum: u64, rays: &[Ray]) -> u64 {
    rays.iter().filter_map(|ray| ray.triangle.depth(ray.e, ray.d)).fold(sum, |total, depth| total.wrapping_add(depth as u64))
}

fn add_covered(sum: u64, room: &[Tri], segments: &[Segment]) -> u64 {
    segments.iter().filter(|s| blocked(room, s.p, s.q)).fold(sum, |total, s| total.wrapping_add(s.mark as u64))
}

fn report(timed: bool, test: &str, sum: u64, start: Instant) {
    if timed {
        println!("{test} {sum} {}", start.elapsed().as_nanos());
    } else {
        println!("{test} {sum}");
    }
}

fn main() {
    let words: Vec<String> = std::env::args().skip(1).collect();
    let timed = words.iter().any(|word| word == "time");
    let rounds: u32 = words.iter().find_map(|word| word.parse().ok()).unwrap_or(2);
    let mut random = Random { state: 0x9e37_79b9_7f4a_7c15 };
    let to_lamps: Vec<Segment> = (0..1024).map(|number| random.to_lamp(number)).collect();
    let to_suns: Vec<Segment> = (0..1024).map(|number| random.to_sun(number)).collect();
    let rays: Vec<Ray> = (0..1024).map(|number| random.ray(number)).collect();
    let room: Vec<Tri> = (0..64)
        .map(|_| {
            let middle = random.vector(20_000);
            random.around(middle)
        })
        .collect();

    let start = Instant::now();
    let sum = (0..rounds).fold(0, |sum, _| add_blocked(sum, &to_lamps));
    report(timed, "lamps", sum, start);

    let start = Instant::now();
    let sum = (0..rounds).fold(0, |sum, _| add_blocked(sum, &to_suns));
    report(timed, "suns", sum, start);

    let start = Instant::now();
    let sum = (0..rounds).fold(0, |sum, _| add_depths(sum, &rays));
    report(timed, "depth", sum, start);

    let start = Instant::now();
    let sum = (0..rounds).fold(0, |sum, _| add_covered(sum, &room, &to_lamps));
    report(timed, "list", sum, start);
}

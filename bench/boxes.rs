// The room, the segments and the rays of the proved program `bench_hier`, and the same walk through the same hierarchy, in plain
// Rust. A crate root that has a module `outside` hands its hierarchy in; `bench/boxes.sh` writes one.
use std::cell::Cell;
use std::time::Instant;

#[derive(Clone, Copy)]
pub struct Vec3 {
    pub x: i64,
    pub y: i64,
    pub z: i64,
}

#[derive(Clone, Copy)]
pub struct Tri {
    pub a: Vec3,
    pub b: Vec3,
    pub c: Vec3,
}

#[derive(Clone, Copy, PartialEq, Eq, PartialOrd, Ord)]
pub struct Hit {
    pub depth: u32,
    pub number: u32,
}

/// What a hierarchy answers.
pub trait Boxes {
    fn build(list: &[Tri]) -> Self;
    /// How many of the segments are blocked. They come in groups that begin at one place.
    fn blocked(&self, groups: &[Group]) -> u64;
    /// The same, with how many triangles are tested; none where it does not count them.
    fn tests(&self, groups: &[Group]) -> Option<u64>;
    fn nearest(&self, e: Vec3, d: Vec3) -> Option<Hit>;
}

/// A place, and the ends of segments that begin there.
pub struct Group {
    pub p: Vec3,
    pub ends: Vec<Vec3>,
}

// ---- vectors and triangles

fn sum(a: Vec3, b: Vec3) -> Vec3 {
    Vec3 { x: a.x + b.x, y: a.y + b.y, z: a.z + b.z }
}

fn difference(a: Vec3, b: Vec3) -> Vec3 {
    Vec3 { x: a.x - b.x, y: a.y - b.y, z: a.z - b.z }
}

fn times(v: Vec3, n: i64) -> Vec3 {
    Vec3 { x: v.x * n, y: v.y * n, z: v.z * n }
}

fn cross(a: Vec3, b: Vec3) -> Vec3 {
    Vec3 { x: a.y * b.z - a.z * b.y, y: a.z * b.x - a.x * b.z, z: a.x * b.y - a.y * b.x }
}

fn dot(a: Vec3, b: Vec3) -> i128 {
    a.x as i128 * b.x as i128 + a.y as i128 * b.y as i128 + a.z as i128 * b.z as i128
}

fn root(n: u128) -> i128 {
    let mut root = (n as f64).sqrt() as u128;
    while root * root > n {
        root -= 1;
    }
    while (root + 1) * (root + 1) <= n {
        root += 1;
    }
    root as i128
}

fn scaled(v: Vec3, l: i64) -> Vec3 {
    let length = root(dot(v, v) as u128);
    if length == 0 {
        return v;
    }
    let part = |x: i64| (l as i128 * x as i128 / length) as i64;
    Vec3 { x: part(v.x), y: part(v.y), z: part(v.z) }
}

fn across(t: &Tri) -> Vec3 {
    cross(difference(t.b, t.a), difference(t.c, t.a))
}

fn sides(p: Vec3, q: Vec3, t: &Tri) -> (i128, i128) {
    let outward = across(t);
    (dot(outward, difference(p, t.a)), dot(outward, difference(q, t.a)))
}

fn crosses_between(p: Vec3, q: Vec3, t: &Tri, start: i128, end: i128) -> bool {
    if !((start < 0) != (end < 0) && start != 0 && end != 0) {
        return false;
    }
    let turned = cross(difference(t.b, p), difference(q, p));
    let u = dot(difference(t.a, p), turned);
    let v = -dot(difference(t.c, p), turned);
    let w = end - start - u - v;
    let some_below = (u < 0) | (v < 0) | (w < 0);
    let some_above = (u > 0) | (v > 0) | (w > 0);
    !(some_below & some_above)
}

fn blocks(p: Vec3, q: Vec3, t: &Tri) -> bool {
    let (start, end) = sides(p, q, t);
    crosses_between(p, q, t, start, end)
}

fn depth(e: Vec3, d: Vec3, t: &Tri) -> Option<u32> {
    let q = sum(e, d);
    let (start, end) = sides(e, q, t);
    if !crosses_between(e, q, t, start, end) {
        return None;
    }
    let (s, r) = (start.unsigned_abs(), end.unsigned_abs());
    Some(((s << 30) / (s + r)) as u32)
}

// ---- boxes

#[derive(Clone, Copy)]
struct Bounds {
    low: [i32; 3],
    high: [i32; 3],
}

const EMPTY: Bounds = Bounds { low: [i32::MAX; 3], high: [i32::MIN; 3] };

impl Bounds {
    fn of(t: &Tri) -> Bounds {
        let of_axis = |a: i64, b: i64, c: i64| (a.min(b).min(c) as i32, a.max(b).max(c) as i32);
        let x = of_axis(t.a.x, t.b.x, t.c.x);
        let y = of_axis(t.a.y, t.b.y, t.c.y);
        let z = of_axis(t.a.z, t.b.z, t.c.z);
        Bounds { low: [x.0, y.0, z.0], high: [x.1, y.1, z.1] }
    }

    fn joined(mut self, other: &Bounds) -> Bounds {
        for k in 0..3 {
            self.low[k] = self.low[k].min(other.low[k]);
            self.high[k] = self.high[k].max(other.high[k]);
        }
        self
    }

    fn extent(&self, k: usize) -> u64 {
        (self.high[k] as i64 - self.low[k] as i64).max(0) as u64
    }

    fn area(&self, scale: u32) -> u64 {
        let (x, y, z) = (self.extent(0) >> scale, self.extent(1) >> scale, self.extent(2) >> scale);
        x * y + y * z + z * x
    }

    fn middle(&self, k: usize) -> i64 {
        self.low[k] as i64 + self.high[k] as i64
    }
}

const WHOLE: u32 = 1 << 30;

/// One axis of a segment, ready for boxes.
struct Slab {
    start: i64,
    wide: i64,
    low: i64,
    high: i64,
    backward: bool,
}

impl Slab {
    #[inline(always)]
    fn new(p: i64, q: i64, backward: bool, shift: u32) -> Slab {
        let units = ((q - p).unsigned_abs() as u32) >> shift;
        let (low, high, slack) = if units == 0 {
            (WHOLE as i64, WHOLE as i64, 1i64 << shift)
        } else {
            let quotient = (WHOLE / units) as i64;
            (if shift == 0 { quotient } else { (WHOLE / (units + 1)) as i64 }, quotient + 1, 0)
        };
        if backward {
            Slab { start: p, wide: p + slack, low: -low, high: -high, backward: true }
        } else {
            Slab { start: p, wide: p - slack, low, high, backward: false }
        }
    }

    #[inline(always)]
    fn entry(&self, low: i32, high: i32) -> i64 {
        ((if self.backward { high } else { low }) as i64 - self.start) * self.low
    }

    #[inline(always)]
    fn exit(&self, low: i32, high: i32) -> i64 {
        ((if self.backward { low } else { high }) as i64 - self.wide) * self.high
    }
}

/// A segment, ready for boxes.
struct Beam {
    slabs: [Slab; 3],
    shift: u32,
    last: i64,
}

impl Beam {
    #[inline(always)]
    fn new(p: Vec3, q: Vec3) -> Beam {
        Beam::toward(p, q, (q.x < p.x, q.y < p.y, q.z < p.z))
    }

    #[inline(always)]
    fn toward(p: Vec3, q: Vec3, backward: (bool, bool, bool)) -> Beam {
        let longest = q.x.abs_diff(p.x).max(q.y.abs_diff(p.y)).max(q.z.abs_diff(p.z));
        let shift = (longest >> 17).max(1).ilog2();
        let slabs = [
            Slab::new(p.x, q.x, backward.0, shift),
            Slab::new(p.y, q.y, backward.1, shift),
            Slab::new(p.z, q.z, backward.2, shift),
        ];
        Beam { slabs, shift, last: ((WHOLE as i64) << shift) - 1 }
    }

    #[inline(always)]
    fn misses(&self, bounds: &Bounds) -> bool {
        let [x, y, z] = &self.slabs;
        let entry = |slab: &Slab, k: usize| slab.entry(bounds.low[k], bounds.high[k]);
        let exit = |slab: &Slab, k: usize| slab.exit(bounds.low[k], bounds.high[k]);
        let near = entry(x, 0).max(entry(y, 1)).max(entry(z, 2)).max(0);
        let far = exit(x, 0).min(exit(y, 1)).min(exit(z, 2)).min(self.last);
        near > far
    }

    #[inline(always)]
    fn shorten(&mut self, most: u32) {
        self.last = ((most as i64 + 1) << self.shift) - 1;
    }
}

// ---- the hierarchy

#[derive(Clone, Copy)]
struct Node {
    bounds: Bounds,
    skip: u32,
    first: u32,
}

#[derive(Clone, Copy)]
struct Row {
    triangle: Tri,
    number: u32,
}

const PLACES: usize = 4096;

pub struct Hier {
    nodes: Vec<Node>,
    rows: Vec<Row>,
    recent: Vec<Cell<u32>>,
}

#[inline(always)]
fn place(p: Vec3, q: Vec3) -> usize {
    let is_far = (q.x.unsigned_abs() | q.y.unsigned_abs() | q.z.unsigned_abs()) >> 27 != 0;
    let k = if is_far { difference(q, p) } else { q };
    let sum = k.x.wrapping_add(k.y.wrapping_mul(0x3F2A_91C5)).wrapping_add(k.z.wrapping_mul(0x1B87_3593_4D2F));
    (sum.unsigned_abs().wrapping_mul(0x9E37_79B9_7F4A_7C15) >> 52) as usize
}

impl Hier {
    fn blocked_counting(&self, p: Vec3, q: Vec3, tests: &mut u64) -> bool {
        let recent = &self.recent[place(p, q)];
        let known = recent.get();
        if let Some(row) = self.rows.get(known as usize) {
            *tests += 1;
            if blocks(p, q, &row.triangle) {
                return true;
            }
        }
        let found = self.blocker(p, q, known, tests);
        recent.set(found.unwrap_or(u32::MAX));
        found.is_some()
    }

    fn blocker(&self, p: Vec3, q: Vec3, known: u32, tests: &mut u64) -> Option<u32> {
        match (q.x < p.x, q.y < p.y, q.z < p.z) {
            (false, false, false) => self.search(p, q, (false, false, false), known, tests),
            (false, false, true) => self.search(p, q, (false, false, true), known, tests),
            (false, true, false) => self.search(p, q, (false, true, false), known, tests),
            (false, true, true) => self.search(p, q, (false, true, true), known, tests),
            (true, false, false) => self.search(p, q, (true, false, false), known, tests),
            (true, false, true) => self.search(p, q, (true, false, true), known, tests),
            (true, true, false) => self.search(p, q, (true, true, false), known, tests),
            (true, true, true) => self.search(p, q, (true, true, true), known, tests),
        }
    }

    #[inline(always)]
    fn search(&self, p: Vec3, q: Vec3, backward: (bool, bool, bool), known: u32, tests: &mut u64) -> Option<u32> {
        let beam = Beam::toward(p, q, backward);
        let last = self.nodes.len() - 1;
        let mut at = 0;
        while at < last {
            let node = &self.nodes[at];
            if beam.misses(&node.bounds) {
                at = node.skip as usize;
                continue;
            }
            at += 1;
            if node.skip as usize == at {
                for place in node.first..self.nodes[at].first {
                    if place == known {
                        continue;
                    }
                    *tests += 1;
                    if blocks(p, q, &self.rows[place as usize].triangle) {
                        return Some(place);
                    }
                }
            }
        }
        None
    }
}

impl Boxes for Hier {
    fn build(list: &[Tri]) -> Hier {
        let mut items: Vec<Item> =
            list.iter().enumerate().map(|(number, t)| Item { bounds: Bounds::of(t), number: number as u32 }).collect();
        let mut nodes = Vec::with_capacity(2 * items.len() + 1);
        grow(&mut items, 0, 0, &mut nodes);
        nodes.push(Node { bounds: EMPTY, skip: u32::MAX, first: list.len() as u32 });
        Hier {
            nodes,
            rows: items.iter().map(|item| Row { triangle: list[item.number as usize], number: item.number }).collect(),
            recent: vec![Cell::new(u32::MAX); PLACES],
        }
    }

    fn blocked(&self, groups: &[Group]) -> u64 {
        let of_group = |group: &Group| group.ends.iter().filter(|q| self.blocked_counting(group.p, **q, &mut 0)).count();
        groups.iter().map(|group| of_group(group) as u64).sum()
    }

    fn tests(&self, groups: &[Group]) -> Option<u64> {
        let mut tests = 0;
        for group in groups {
            for q in &group.ends {
                self.blocked_counting(group.p, *q, &mut tests);
            }
        }
        Some(tests)
    }

    fn nearest(&self, e: Vec3, d: Vec3) -> Option<Hit> {
        let mut beam = Beam::new(e, sum(e, d));
        let mut best: Option<Hit> = None;
        let last = self.nodes.len() - 1;
        let mut at = 0;
        while at < last {
            let node = &self.nodes[at];
            if beam.misses(&node.bounds) {
                at = node.skip as usize;
                continue;
            }
            at += 1;
            if node.skip as usize == at {
                for row in &self.rows[node.first as usize..self.nodes[at].first as usize] {
                    if let Some(depth) = depth(e, d, &row.triangle) {
                        let hit = Hit { depth, number: row.number };
                        best = Some(best.map_or(hit, |first| first.min(hit)));
                    }
                }
                if let Some(hit) = best {
                    beam.shorten(hit.depth);
                }
            }
        }
        best
    }
}

// ---- building it

const BINS: usize = 16;
const LEAF: usize = 2;
const DEEP: u32 = 48;
const KEPT_BITS: u32 = 20;

#[derive(Clone, Copy)]
struct Item {
    bounds: Bounds,
    number: u32,
}

#[derive(Clone, Copy)]
struct Bin {
    bounds: Bounds,
    count: u64,
}

impl Bin {
    fn joined(self, other: &Bin) -> Bin {
        Bin { bounds: self.bounds.joined(&other.bounds), count: self.count + other.count }
    }
}

/// Between which bins a node is split.
struct Split {
    axis: usize,
    base: i64,
    shift: u32,
    last: usize,
    upper_first: bool,
}

fn bits_beyond(extent: u64, bits: u32) -> u32 {
    (64 - extent.leading_zeros()).saturating_sub(bits)
}

impl Split {
    fn bin_of(&self, bounds: &Bounds) -> usize {
        ((bounds.middle(self.axis) - self.base) as u64 >> self.shift) as usize & (BINS - 1)
    }

    fn best(items: &[Item]) -> Option<Split> {
        let (mut low, mut high) = ([i64::MAX; 3], [i64::MIN; 3]);
        for item in items {
            for k in 0..3 {
                low[k] = low[k].min(item.bounds.middle(k));
                high[k] = high[k].max(item.bounds.middle(k));
            }
        }
        let extent = [0, 1, 2].map(|k| (high[k] - low[k]) as u64);
        let axis = if extent[0] >= extent[1] && extent[0] >= extent[2] {
            0
        } else if extent[1] >= extent[2] {
            1
        } else {
            2
        };
        let shift = bits_beyond(extent[axis], BINS.ilog2());
        let mut split = Split { axis, base: low[axis], shift, last: 0, upper_first: false };
        let mut bins = [Bin { bounds: EMPTY, count: 0 }; BINS];
        for item in items {
            let bin = &mut bins[split.bin_of(&item.bounds)];
            *bin = bin.joined(&Bin { bounds: item.bounds, count: 1 });
        }
        let mut from = bins;
        for i in (0..BINS - 1).rev() {
            from[i] = from[i].joined(&from[i + 1]);
        }
        let all = &from[0].bounds;
        let scale = bits_beyond(all.extent(0).max(all.extent(1)).max(all.extent(2)), KEPT_BITS);
        let mut least = u64::MAX;
        let mut lower = Bin { bounds: EMPTY, count: 0 };
        for last in 0..BINS - 1 {
            lower = lower.joined(&bins[last]);
            let upper = &from[last + 1];
            if lower.count == 0 || upper.count == 0 {
                continue;
            }
            let (below, above) = (lower.bounds.area(scale), upper.bounds.area(scale));
            let cost = below * lower.count + above * upper.count;
            if cost < least {
                least = cost;
                split.last = last;
                split.upper_first = above > below;
            }
        }
        if least == u64::MAX { None } else { Some(split) }
    }

    fn divide(&self, items: &mut [Item]) -> usize {
        let (mut first, mut end) = (0, items.len());
        while first < end {
            if (self.bin_of(&items[first].bounds) <= self.last) != self.upper_first {
                first += 1;
            } else {
                end -= 1;
                items.swap(first, end);
            }
        }
        first
    }
}

fn grow(items: &mut [Item], start: u32, depth: u32, nodes: &mut Vec<Node>) -> Bounds {
    let at = nodes.len();
    let bounds = items[0].bounds.joined(&items[items.len() - 1].bounds);
    nodes.push(Node { bounds, skip: at as u32 + 1, first: start });
    if items.len() <= LEAF {
        return bounds;
    }
    let split = if depth < DEEP { Split::best(items) } else { None };
    let half = items.len() / 2;
    let count = split.map_or(half, |split| split.divide(items));
    let (left, right) = items.split_at_mut(count);
    let a = grow(left, start, depth + 1, nodes);
    let b = grow(right, start + count as u32, depth + 1, nodes);
    nodes[at] = Node { bounds: a.joined(&b), skip: nodes.len() as u32, first: start };
    a.joined(&b)
}

// ---- the room, the segments and the rays

struct Random {
    state: u64,
}

impl Random {
    fn number(&mut self, most: u32) -> u32 {
        self.state ^= self.state << 13;
        self.state ^= self.state >> 7;
        self.state ^= self.state << 17;
        (self.state % (most as u64 + 1)) as u32
    }

    fn coordinate(&mut self) -> i64 {
        let size = self.number(50_000) as i64;
        if self.number(1) == 0 { size } else { -size }
    }

    fn place(&mut self) -> Vec3 {
        let x = self.coordinate();
        let y = self.coordinate();
        let z = self.coordinate();
        Vec3 { x, y, z }
    }

    fn spot(&mut self, room: &[Tri]) -> Vec3 {
        let t = &room[self.number(room.len() as u32 - 1) as usize];
        let all = sum(sum(t.a, t.b), t.c);
        let middle = Vec3 { x: all.x / 3, y: all.y / 3, z: all.z / 3 };
        sum(middle, scaled(scaled(across(t), 16_384), 16))
    }
}

#[derive(Clone, Copy)]
struct Face {
    corner: Vec3,
    first: Vec3,
    second: Vec3,
}

/// The faces of a box, seen from outside.
fn faces(low: Vec3, wide: i64, high: i64, deep: i64) -> [Face; 6] {
    let x = Vec3 { x: wide, y: 0, z: 0 };
    let y = Vec3 { x: 0, y: high, z: 0 };
    let z = Vec3 { x: 0, y: 0, z: deep };
    let face = |corner, first, second| Face { corner, first, second };
    [
        face(low, z, y),
        face(sum(low, x), y, z),
        face(low, x, z),
        face(sum(low, y), z, x),
        face(low, y, x),
        face(sum(low, z), x, y),
    ]
}

fn push_face(list: &mut Vec<Tri>, face: Face, grid: i64) {
    let place = |i, j| {
        let way = sum(times(face.first, i), times(face.second, j));
        sum(face.corner, Vec3 { x: way.x / grid, y: way.y / grid, z: way.z / grid })
    };
    for number in 0..grid * grid {
        let (i, j) = (number % grid, number / grid);
        let (a, b, c, d) = (place(i, j), place(i + 1, j), place(i + 1, j + 1), place(i, j + 1));
        list.push(Tri { a, b, c });
        list.push(Tri { a, b: c, c: d });
    }
}

fn room(random: &mut Random, grid: i64) -> Vec<Tri> {
    let mut list = Vec::new();
    let corner = Vec3 { x: -50_000, y: -50_000, z: -50_000 };
    for face in faces(corner, 100_000, 100_000, 100_000) {
        push_face(&mut list, Face { corner: face.corner, first: face.second, second: face.first }, grid);
    }
    for _ in 0..16 {
        let wide = 3_000 + random.number(17_000) as i64;
        let high = 4_000 + random.number(20_000) as i64;
        let deep = 3_000 + random.number(17_000) as i64;
        let x = random.number(80_000) as i64 - 50_000;
        let z = random.number(80_000) as i64 - 50_000;
        for face in faces(Vec3 { x, y: -49_000, z }, wide, high, deep) {
            push_face(&mut list, face, grid);
        }
    }
    list
}

fn to_lamps(random: &mut Random, room: &[Tri]) -> Vec<Group> {
    let lamps: Vec<Vec3> = (0..200)
        .map(|_| {
            let y = 45_000 + random.number(4_000) as i64;
            Vec3 { y, ..random.place() }
        })
        .collect();
    (0..256)
        .map(|number| {
            let p = random.spot(room);
            Group { p, ends: (0..32).map(|turn| lamps[(number / 16 * 32 + turn) % 200]).collect() }
        })
        .collect()
}

fn to_suns(random: &mut Random, room: &[Tri]) -> Vec<Group> {
    let suns: Vec<Vec3> = (0..16).map(|_| times(scaled(random.place(), 16_384), 16_384)).collect();
    (0..256)
        .map(|_| {
            let p = random.spot(room);
            Group { p, ends: suns.iter().map(|sun| difference(p, *sun)).collect() }
        })
        .collect()
}

fn report(timed: bool, kind: &str, sum: u64, start: Instant) {
    let nanoseconds = start.elapsed().as_nanos();
    if timed {
        println!("{kind} {sum} {nanoseconds}");
    } else {
        println!("{kind} {sum}");
    }
}

fn run<B: Boxes>(grid: i64, rounds: u32, timed: bool) {
    let mut random = Random { state: 0x9e37_79b9_7f4a_7c15 };
    let room = room(&mut random, grid);
    let to_lamps = to_lamps(&mut random, &room);
    let to_suns = to_suns(&mut random, &room);
    let rays: Vec<(Vec3, Vec3)> = (0..4096)
        .map(|_| {
            let e = random.place();
            (e, scaled(random.place(), 1 << 28))
        })
        .collect();

    let start = Instant::now();
    let boxes = B::build(&room);
    report(timed, "triangles", room.len() as u64, start);

    for (kind, groups) in [("lamps", &to_lamps), ("suns", &to_suns)] {
        if let Some(tests) = boxes.tests(groups) {
            println!("{kind}-tests {tests}");
        }
        let start = Instant::now();
        let sum = (0..rounds).map(|_| boxes.blocked(groups)).sum();
        report(timed, kind, sum, start);
    }

    let start = Instant::now();
    let mut sum = 0u64;
    for _ in 0..rounds {
        for (e, d) in &rays {
            if let Some(hit) = boxes.nearest(*e, *d) {
                sum = sum.wrapping_add(hit.depth as u64 + hit.number as u64);
            }
        }
    }
    report(timed, "rays", sum, start);
}

/// The arguments are those of the proved program.
pub fn main_of<B: Boxes>() {
    let words: Vec<String> = std::env::args().skip(1).collect();
    let numbers: Vec<u32> = words.iter().filter_map(|word| word.parse().ok()).collect();
    let timed = words.iter().any(|word| word == "time");
    run::<B>(numbers.first().copied().unwrap_or(1) as i64, numbers.get(1).copied().unwrap_or(0), timed);
}

// The same loop and arithmetic as the proved program, in plain Rust.
use std::time::Instant;

#[derive(Clone, Copy)]
struct Vec3 {
    x: i64,
    y: i64,
    z: i64,
}

#[derive(Clone, Copy)]
struct Span3 {
    lo: Vec3,
    hi: Vec3,
}

#[derive(Clone, Copy)]
struct Rgb {
    r: u128,
    g: u128,
    b: u128,
}

#[derive(Clone, Copy)]
struct Power {
    r: u64,
    g: u64,
    b: u64,
}

#[derive(Clone, Copy)]
struct Colour {
    r: u32,
    g: u32,
    b: u32,
}

#[derive(Clone, Copy)]
struct Spot {
    x: Vec3,
    n: Vec3,
    r: Vec3,
    kd: Colour,
    ks: Colour,
    ns: u32,
}

#[derive(Clone, Copy)]
struct OmniClump {
    span: Span3,
    total: Power,
    #[allow(dead_code)]
    count: u32,
}

#[derive(Clone, Copy)]
struct OrientedClump {
    span: Span3,
    normals: Span3,
    least: u32,
    total: Power,
    #[allow(dead_code)]
    count: u32,
}

#[derive(Clone, Copy)]
struct Emission {
    normals: Span3,
    least_n: u64,
    offsets: Span3,
    least_d: u64,
}

static RECIPROCAL_ROOTS: [u16; 192] = [
    65281, 64781, 64292, 63814, 63346, 62889, 62441, 62003, 61574, 61154, 60742, 60338, 59943,
    59555, 59174, 58801, 58434, 58075, 57722, 57375, 57035, 56700, 56371, 56048, 55731, 55418,
    55111, 54809, 54512, 54220, 53932, 53649, 53371, 53096, 52826, 52560, 52298, 52039, 51785,
    51534, 51287, 51043, 50803, 50566, 50333, 50102, 49875, 49651, 49430, 49212, 48996, 48784,
    48574, 48367, 48162, 47960, 47761, 47564, 47369, 47177, 46987, 46800, 46614, 46431, 46250,
    46071, 45894, 45720, 45547, 45376, 45207, 45040, 44874, 44711, 44549, 44389, 44231, 44074,
    43920, 43766, 43615, 43464, 43316, 43169, 43023, 42879, 42736, 42595, 42455, 42317, 42179,
    42044, 41909, 41776, 41644, 41513, 41383, 41255, 41128, 41002, 40877, 40754, 40631, 40510,
    40389, 40270, 40152, 40034, 39918, 39803, 39689, 39575, 39463, 39352, 39241, 39132, 39023,
    38916, 38809, 38703, 38598, 38494, 38391, 38288, 38186, 38085, 37985, 37886, 37788, 37690,
    37593, 37497, 37401, 37306, 37212, 37119, 37026, 36934, 36843, 36752, 36662, 36573, 36484,
    36396, 36309, 36222, 36136, 36050, 35965, 35881, 35797, 35714, 35632, 35550, 35468, 35387,
    35307, 35227, 35148, 35069, 34991, 34913, 34836, 34759, 34683, 34608, 34533, 34458, 34384,
    34310, 34237, 34164, 34092, 34020, 33948, 33877, 33807, 33737, 33667, 33598, 33529, 33461,
    33393, 33325, 33258, 33192, 33125, 33059, 32994, 32929, 32864, 32800,
];

const THREE: u64 = 3 << 30;

fn reciprocal_root(leading: u64) -> u64 {
    let place = ((leading >> 56) as usize).max(64) - 64;
    let high = leading >> 32;
    let root = RECIPROCAL_ROOTS[place] as u64;
    let near = root.wrapping_mul(root).wrapping_mul(high) >> 32;
    let root = root.wrapping_mul(THREE.wrapping_sub(near)) >> 15;
    let near = (root.wrapping_mul(root) >> 32).wrapping_mul(high) >> 32;
    root.wrapping_mul(THREE.wrapping_sub(near)) >> 31
}

fn short_dot(a: Vec3, b: Vec3) -> i64 {
    a.x * b.x + a.y * b.y + a.z * b.z
}

fn short_square(v: Vec3) -> u64 {
    short_dot(v, v) as u64
}

fn root_of_quotient(top: u128, squares: u128) -> u32 {
    let quotient = top / squares;
    let mut root = (quotient as f64).sqrt() as u128;
    while root * root > quotient {
        root -= 1;
    }
    while (root + 1) * (root + 1) <= quotient {
        root += 1;
    }
    root as u32
}

fn cosine_guess(along: u64, squares: u128) -> u64 {
    let half = squares.leading_zeros() / 2;
    let leading = ((squares << (2 * half)) >> 64) as u64;
    let along = (along << half) >> 32;
    (along.wrapping_mul(reciprocal_root(leading)) >> 47).min(65536)
}

fn cosine(along: u64, squares: u128) -> u32 {
    let top = 0x1_0000_0000 * (along as u128 * along as u128);
    let mut root = cosine_guess(along, squares);
    while (root * root) as u128 * squares > top {
        root -= 1;
    }
    while ((root + 1) * (root + 1)) as u128 * squares <= top {
        root += 1;
    }
    root as u32
}

const LONG_SQUARES: u128 = 1 << 86;

fn positive_cosine(along: u64, squares: u128) -> u32 {
    let own = along as u128 * along as u128;
    if squares <= own {
        65536
    } else if squares < LONG_SQUARES {
        cosine(along, squares)
    } else {
        root_of_quotient(0x1_0000_0000 * own, squares)
    }
}

fn cosine_at_most(along: i64, squares: u128) -> u32 {
    if along <= 0 { 0 } else { positive_cosine(along as u64, squares) }
}

fn gap(x: i64, lo: i64, hi: i64) -> u64 {
    x.clamp(lo, hi).abs_diff(x)
}

fn near2(x: Vec3, span: Span3) -> u128 {
    let a = gap(x.x, span.lo.x, span.hi.x);
    let b = gap(x.y, span.lo.y, span.hi.y);
    let c = gap(x.z, span.lo.z, span.hi.z);
    (a * a + b * b + c * c) as u128
}

fn greater_product(n: i64, lo: i64, hi: i64) -> i64 {
    (n * lo).max(n * hi)
}

fn greatest_dot(n: Vec3, span: Span3) -> i64 {
    greater_product(n.x, span.lo.x, span.hi.x)
        + greater_product(n.y, span.lo.y, span.hi.y)
        + greater_product(n.z, span.lo.z, span.hi.z)
}

fn cos_top(n: Vec3, span: Span3, least: u128) -> u32 {
    cosine_at_most(greatest_dot(n, span), short_square(n) as u128 * (least as u64) as u128)
}

#[derive(Clone, Copy)]
struct Between {
    lo: i64,
    hi: i64,
}

fn multiples(n: i64, lo: i64, hi: i64) -> Between {
    let a = n * lo;
    let b = n * hi;
    Between { lo: a.min(b), hi: a.max(b) }
}

fn products(a_lo: i64, a_hi: i64, b_lo: i64, b_hi: i64) -> Between {
    let p = multiples(a_lo, b_lo, b_hi);
    let q = multiples(a_hi, b_lo, b_hi);
    Between { lo: p.lo.min(q.lo), hi: p.hi.max(q.hi) }
}

fn least_difference(p: Between, q: Between) -> u128 {
    let nearest = (p.lo - q.hi).max(q.lo - p.hi).max(0) as u128;
    nearest * nearest
}

fn least_cross(n: Vec3, span: Span3) -> u128 {
    least_difference(multiples(n.y, span.lo.z, span.hi.z), multiples(n.z, span.lo.y, span.hi.y))
        + least_difference(multiples(n.z, span.lo.x, span.hi.x), multiples(n.x, span.lo.z, span.hi.z))
        + least_difference(multiples(n.x, span.lo.y, span.hi.y), multiples(n.y, span.lo.x, span.hi.x))
}

fn least_cross_of_boxes(a: Span3, b: Span3) -> u128 {
    least_difference(products(a.lo.y, a.hi.y, b.lo.z, b.hi.z), products(a.lo.z, a.hi.z, b.lo.y, b.hi.y))
        + least_difference(products(a.lo.z, a.hi.z, b.lo.x, b.hi.x), products(a.lo.x, a.hi.x, b.lo.z, b.hi.z))
        + least_difference(products(a.lo.x, a.hi.x, b.lo.y, b.hi.y), products(a.lo.y, a.hi.y, b.lo.x, b.hi.x))
}

fn lesser_cosine(along: i64, squares: u128, across: u128) -> u32 {
    let own = along as u128 * along as u128;
    cosine_at_most(along, squares.max(own + across))
}

fn cos_top2(n: Vec3, span: Span3, least: u128) -> u32 {
    let along = greatest_dot(n, span);
    if along <= 0 {
        return 0;
    }
    lesser_cosine(along, short_square(n) as u128 * (least as u64) as u128, least_cross(n, span))
}

fn greatest_product(a_lo: i64, a_hi: i64, b_lo: i64, b_hi: i64) -> i64 {
    greater_product(a_lo, b_lo, b_hi).max(greater_product(a_hi, b_lo, b_hi))
}

fn greatest_dot_of_boxes(a: Span3, b: Span3) -> i64 {
    greatest_product(a.lo.x, a.hi.x, b.lo.x, b.hi.x)
        + greatest_product(a.lo.y, a.hi.y, b.lo.y, b.hi.y)
        + greatest_product(a.lo.z, a.hi.z, b.lo.z, b.hi.z)
}

fn emit_top(normals: Span3, least_n: u64, offsets: Span3, least_d: u64) -> u32 {
    cosine_at_most(greatest_dot_of_boxes(normals, offsets), least_n as u128 * least_d as u128)
}

fn emit_top2(normals: Span3, least_n: u64, offsets: Span3, least_d: u64) -> u32 {
    let along = greatest_dot_of_boxes(normals, offsets);
    if along <= 0 {
        return 0;
    }
    lesser_cosine(along, least_n as u128 * least_d as u128, least_cross_of_boxes(normals, offsets))
}

#[derive(Clone, Copy)]
enum Rule {
    One,
    Two,
}

fn cosine_top(n: Vec3, span: Span3, least: u128, rule: Rule) -> u32 {
    match rule {
        Rule::One => cos_top(n, span, least),
        Rule::Two => cos_top2(n, span, least),
    }
}

fn emission_top(normals: Span3, least_n: u64, offsets: Span3, least_d: u64, rule: Rule) -> u32 {
    match rule {
        Rule::One => emit_top(normals, least_n, offsets, least_d),
        Rule::Two => emit_top2(normals, least_n, offsets, least_d),
    }
}

fn difference(a: Vec3, b: Vec3) -> Vec3 {
    Vec3 { x: a.x - b.x, y: a.y - b.y, z: a.z - b.z }
}

fn box_from(x: Vec3, span: Span3) -> Span3 {
    Span3 { lo: difference(span.lo, x), hi: difference(span.hi, x) }
}

fn box_to(x: Vec3, span: Span3) -> Span3 {
    Span3 { lo: difference(x, span.hi), hi: difference(x, span.lo) }
}

fn falloff(square: u64) -> u64 {
    100_000_000_000_000_000 / square.max(10_000)
}

fn channel(scale: u64, colour: u32, total: u64) -> u128 {
    scale as u128 * (colour as u64 * total) as u128
}

fn is_black(colour: Colour) -> bool {
    colour.r == 0 && colour.g == 0 && colour.b == 0
}

fn pow16(c: u32, e: u32) -> u32 {
    if e == 0 {
        return 65536;
    }
    let mut power = c as u64;
    for place in (0..e.ilog2()).rev() {
        power = power * power >> 16;
        if e >> place & 1 == 1 {
            power = c as u64 * power >> 16;
        }
    }
    power as u32
}

#[derive(Clone, Copy)]
struct Reflection {
    cosine: u32,
    highlight: u32,
}

fn reflection_top(spot: &Spot, span: Span3, least: u128, rule: Rule) -> Option<Reflection> {
    let cosine = cosine_top(spot.n, span, least, rule);
    if cosine == 0 {
        return None;
    }
    let highlight = if is_black(spot.ks) { 0 } else { pow16(cosine_top(spot.r, span, least, rule), spot.ns) };
    Some(Reflection { cosine, highlight })
}

fn scaled_total(geometry: u64, spot: &Spot, reflection: Reflection, total: Power) -> Rgb {
    let diffuse = geometry * reflection.cosine as u64;
    let specular = geometry * reflection.highlight as u64;
    Rgb {
        r: channel(diffuse, spot.kd.r, total.r) + channel(specular, spot.ks.r, total.r),
        g: channel(diffuse, spot.kd.g, total.g) + channel(specular, spot.ks.g, total.g),
        b: channel(diffuse, spot.kd.b, total.b) + channel(specular, spot.ks.b, total.b),
    }
}

fn cos16(n: Vec3, b: Vec3) -> u32 {
    let along = short_dot(n, b);
    if along <= 0 {
        return 0;
    }
    cosine(along as u64, short_square(n) as u128 * short_square(b) as u128)
}

fn material(spot: &Spot, b: Vec3) -> Rgb {
    let cosine = cos16(spot.n, b);
    if cosine == 0 {
        return Rgb { r: 0, g: 0, b: 0 };
    }
    let highlight = if is_black(spot.ks) { 0 } else { pow16(cos16(spot.r, b), spot.ns) };
    Rgb {
        r: (spot.kd.r * cosine + spot.ks.r * highlight) as u128,
        g: (spot.kd.g * cosine + spot.ks.g * highlight) as u128,
        b: (spot.kd.b * cosine + spot.ks.b * highlight) as u128,
    }
}

fn top(spot: &Spot, clump: &OmniClump, rule: Rule) -> Rgb {
    let near = near2(spot.x, clump.span);
    let Some(reflection) = reflection_top(spot, box_from(spot.x, clump.span), near, rule) else {
        return Rgb { r: 0, g: 0, b: 0 };
    };
    scaled_total(falloff(near as u64), spot, reflection, clump.total)
}

fn oriented_top(spot: &Spot, clump: &OrientedClump, rule: Rule) -> Rgb {
    let near = near2(spot.x, clump.span);
    let Some(reflection) = reflection_top(spot, box_from(spot.x, clump.span), near, rule) else {
        return Rgb { r: 0, g: 0, b: 0 };
    };
    let offsets = box_to(spot.x, clump.span);
    let emission = emission_top(clump.normals, clump.least as u64, offsets, near as u64, rule);
    if emission == 0 {
        return Rgb { r: 0, g: 0, b: 0 };
    }
    let geometry = emission as u64 * falloff(near as u64) / 65536;
    scaled_total(geometry, spot, reflection, clump.total)
}

struct Random {
    state: u64,
}

impl Random {
    fn number(&mut self, most: u32) -> u32 {
        self.state ^= self.state << 13;
        self.state ^= self.state >> 7;
        self.state ^= self.state << 17;
        (self.state % (most as u64 + 1)) as u32
    }

    fn vector(&mut self, most: u32) -> Vec3 {
        let x = self.number(most) as i64;
        let y = self.number(most) as i64;
        let z = self.number(most) as i64;
        Vec3 { x, y, z }
    }

    fn spot(&mut self) -> Spot {
        let place = self.vector(50_000_000);
        let n = self.vector(16384);
        let r = self.number(10_000);
        let g = self.number(10_000);
        let b = self.number(10_000);
        let origin = Vec3 { x: 0, y: 0, z: 0 };
        Spot {
            x: difference(origin, place),
            n,
            r: origin,
            kd: Colour { r, g, b },
            ks: Colour { r: 0, g: 0, b: 0 },
            ns: 0,
        }
    }

    fn shiny_spot(&mut self) -> Spot {
        let spot = self.spot();
        let view = self.vector(16384);
        let r = self.number(10_000);
        let g = self.number(10_000);
        let b = self.number(10_000);
        let ns = self.number(100);
        Spot { r: view, ks: Colour { r, g, b }, ns, ..spot }
    }

    fn twice_a_power(&mut self) -> Power {
        let r = self.number(100_000_000) as u64;
        let g = self.number(100_000_000) as u64;
        let b = self.number(100_000_000) as u64;
        Power { r: 2 * r, g: 2 * g, b: 2 * b }
    }

    fn clump(&mut self) -> OmniClump {
        let place = self.vector(49_000_000);
        let apart = self.vector(1_000_000);
        let total = self.twice_a_power();
        let span = Span3 { lo: difference(place, apart), hi: place };
        OmniClump { span, total, count: 2 }
    }

    fn oriented_clump(&mut self) -> OrientedClump {
        let place = self.vector(49_000_000);
        let apart = self.vector(1_000_000);
        let turned = self.vector(15_384);
        let more = self.vector(1_000);
        let total = self.twice_a_power();
        let origin = Vec3 { x: 0, y: 0, z: 0 };
        let normal = difference(origin, turned);
        OrientedClump {
            span: Span3 { lo: difference(place, apart), hi: place },
            normals: Span3 { lo: difference(normal, more), hi: normal },
            least: short_square(normal) as u32,
            total,
            count: 2,
        }
    }

    fn emission(&mut self) -> Emission {
        let normal = self.vector(15_384);
        let turned = self.vector(1_000);
        let offset = self.vector(99_100_000);
        let apart = self.vector(1_000_000);
        let normals = Span3 { lo: difference(normal, turned), hi: normal };
        let offsets = Span3 { lo: difference(offset, apart), hi: offset };
        Emission {
            normals,
            least_n: short_square(normals.lo),
            offsets,
            least_d: short_square(offsets.lo),
        }
    }
}

fn plus(total: u128, top: Rgb) -> u128 {
    total.wrapping_add(top.r).wrapping_add(top.g).wrapping_add(top.b)
}

fn add_tops(sum: u128, cases: &[(Spot, OmniClump)], rule: Rule) -> u128 {
    cases.iter().fold(sum, |total, (spot, clump)| plus(total, top(spot, clump, rule)))
}

fn add_oriented_tops(sum: u128, cases: &[(Spot, OrientedClump)], rule: Rule) -> u128 {
    cases.iter().fold(sum, |total, (spot, clump)| plus(total, oriented_top(spot, clump, rule)))
}

fn add_materials(sum: u128, reflections: &[(Spot, Vec3)]) -> u128 {
    reflections.iter().fold(sum, |total, (spot, b)| plus(total, material(spot, *b)))
}

fn add_emissions(sum: u128, emissions: &[Emission]) -> u128 {
    emissions.iter().fold(sum, |total, e| {
        total.wrapping_add(emit_top(e.normals, e.least_n, e.offsets, e.least_d) as u128)
    })
}

fn report(timed: bool, bound: &str, sum: u128, start: Instant) {
    if timed {
        println!("{bound} {sum} {}", start.elapsed().as_nanos());
    } else {
        println!("{bound} {sum}");
    }
}

fn main() {
    let words: Vec<String> = std::env::args().skip(1).collect();
    let timed = words.iter().any(|word| word == "time");
    let rounds: u32 = words.iter().find_map(|word| word.parse().ok()).unwrap_or(2);
    let mut random = Random { state: 0x9e37_79b9_7f4a_7c15 };
    let cases: Vec<(Spot, OmniClump)> = (0..1024)
        .map(|_| {
            let spot = random.spot();
            (spot, random.clump())
        })
        .collect();

    let oriented_cases: Vec<(Spot, OrientedClump)> = (0..1024)
        .map(|_| {
            let spot = random.spot();
            (spot, random.oriented_clump())
        })
        .collect();
    let emissions: Vec<Emission> = (0..1024).map(|_| random.emission()).collect();
    let shiny_cases: Vec<(Spot, OmniClump)> = (0..1024)
        .map(|_| {
            let spot = random.shiny_spot();
            (spot, random.clump())
        })
        .collect();
    let reflections: Vec<(Spot, Vec3)> = (0..1024)
        .map(|_| {
            let spot = random.shiny_spot();
            (spot, random.vector(100_100_000))
        })
        .collect();

    for (rule, name) in [(Rule::One, "top"), (Rule::Two, "top_2")] {
        let start = Instant::now();
        let sum = (0..rounds).fold(0, |sum, _| add_tops(sum, &cases, rule));
        report(timed, name, sum, start);
    }

    for (rule, name) in [(Rule::One, "oriented"), (Rule::Two, "oriented_2")] {
        let start = Instant::now();
        let sum = (0..rounds).fold(0, |sum, _| add_oriented_tops(sum, &oriented_cases, rule));
        report(timed, name, sum, start);
    }

    let start = Instant::now();
    let sum = (0..rounds).fold(0, |sum, _| add_emissions(sum, &emissions));
    report(timed, "emit_top", sum, start);

    for (rule, name) in [(Rule::One, "shiny"), (Rule::Two, "shiny_2")] {
        let start = Instant::now();
        let sum = (0..rounds).fold(0, |sum, _| add_tops(sum, &shiny_cases, rule));
        report(timed, name, sum, start);
    }

    let start = Instant::now();
    let sum = (0..rounds).fold(0, |sum, _| add_materials(sum, &reflections));
    report(timed, "material", sum, start);
}

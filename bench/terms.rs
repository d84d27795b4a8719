// The same loops and arithmetic as the proved program, in plain Rust.
use std::time::Instant;

#[derive(Clone, Copy)]
struct Vec3 {
    x: i64,
    y: i64,
    z: i64,
}

static RECIPROCAL_ROOTS: [u16; 192] = [
    65281, 64781, 64292, 63814, 63346, 62889, 62441, 62003, 61574, 61154, 60742, 60338, 59943,
    59555, 59174, 58801, 58434, 58075, 57722, 57375, 57035, 56700, 56371, 56048, 55731, 55418,
    55111, 54809, 54512, 54220, 53932, 53649, 53371, 53096, 52826, 52560, 52298, 52039, 51785,
    51534, 51287, 51043, 50803, 50566, 50333, 50102, 49875, 49651, 49430, 49212, 48996, 48784,
    48574, 48367, 48162, 47960, 47761, 47564, 47369, 47177, 46987, 46800, 46614, 46431, 46250,
    46071, 45894, 45720, 45547, 45376, 45207, 45040, 44874, 44711, 44549, 44389, 44231, 44074,
    43920, 43766, 43615, 43464, 43316, 43169, 43023, 42879, 42736, 42595, 42455, 42317, 42179,
    42044, 41909, 41776, 41644, 41513, 41383, 41255, 41128, 41002, 40877, 40754, 40631, 40510,
    40389, 40270, 40152, 40034, 39918, 39803, 39689, 39575, 39463, 39352, 39241, 39132, 39023,
    38916, 38809, 38703, 38598, 38494, 38391, 38288, 38186, 38085, 37985, 37886, 37788, 37690,
    37593, 37497, 37401, 37306, 37212, 37119, 37026, 36934, 36843, 36752, 36662, 36573, 36484,
    36396, 36309, 36222, 36136, 36050, 35965, 35881, 35797, 35714, 35632, 35550, 35468, 35387,
    35307, 35227, 35148, 35069, 34991, 34913, 34836, 34759, 34683, 34608, 34533, 34458, 34384,
    34310, 34237, 34164, 34092, 34020, 33948, 33877, 33807, 33737, 33667, 33598, 33529, 33461,
    33393, 33325, 33258, 33192, 33125, 33059, 32994, 32929, 32864, 32800,
];

const THREE: u64 = 3 << 30;

fn reciprocal_root(leading: u64) -> u64 {
    let place = ((leading >> 56) as usize).max(64) - 64;
    let high = leading >> 32;
    let root = RECIPROCAL_ROOTS[place] as u64;
    let near = root.wrapping_mul(root).wrapping_mul(high) >> 32;
    let root = root.wrapping_mul(THREE.wrapping_sub(near)) >> 15;
    let near = (root.wrapping_mul(root) >> 32).wrapping_mul(high) >> 32;
    root.wrapping_mul(THREE.wrapping_sub(near)) >> 31
}

fn root_guess(n: u64) -> u64 {
    let half = n.leading_zeros().min(63) / 2;
    let leading = n << (2 * half);
    let root = (leading >> 32).wrapping_mul(reciprocal_root(leading)) >> 31;
    (root >> half).min(0xffff_ffff)
}

fn isqrt_of_word(n: u64) -> u64 {
    let mut root = root_guess(n);
    while root * root > n {
        root -= 1;
    }
    while 2 * root < n - root * root {
        root += 1;
    }
    root
}

fn isqrt(n: u128) -> u64 {
    if n < 0x1_0000_0000_0000_0000 {
        return isqrt_of_word(n as u64);
    }
    let half = (n.ilog2() - 62) / 2;
    let leading = (n >> (2 * half)) as u64;
    let guess = (isqrt_of_word(leading) as u128 + 1) << half;
    let mut root = (guess + n / guess) / 2;
    while root * root > n {
        root = (root + n / root) / 2;
    }
    root as u64
}

fn short_dot(a: Vec3, b: Vec3) -> i64 {
    a.x * b.x + a.y * b.y + a.z * b.z
}

fn short_square(v: Vec3) -> u64 {
    short_dot(v, v) as u64
}

fn share(l: u64, size: u64, length: u64) -> u64 {
    if length < 0x1_0000_0000 {
        l * size / length
    } else {
        (l as u128 * size as u128 / length as u128) as u64
    }
}

fn part(l: u64, a: i64, length: u64) -> i64 {
    let size = share(l, a.unsigned_abs(), length) as i64;
    if a < 0 { -size } else { size }
}

fn dot(a: Vec3, b: Vec3) -> i128 {
    a.x as i128 * b.x as i128 + a.y as i128 * b.y as i128 + a.z as i128 * b.z as i128
}

const SHORT: u64 = 1 << 30;

fn is_short(v: Vec3) -> bool {
    v.x.unsigned_abs() <= SHORT && v.y.unsigned_abs() <= SHORT && v.z.unsigned_abs() <= SHORT
}

fn length_of(v: Vec3) -> u64 {
    if is_short(v) {
        isqrt_of_word(short_square(v))
    } else {
        isqrt(dot(v, v) as u128)
    }
}

fn scaled(v: Vec3, l: u64) -> Vec3 {
    let length = length_of(v);
    if length == 0 {
        return Vec3 { x: 0, y: 0, z: 0 };
    }
    Vec3 { x: part(l, v.x, length), y: part(l, v.y, length), z: part(l, v.z, length) }
}

fn cosine_guess(along: u64, squares: u128) -> u64 {
    let half = squares.leading_zeros() / 2;
    let leading = ((squares << (2 * half)) >> 64) as u64;
    let along = (along << half) >> 32;
    (along.wrapping_mul(reciprocal_root(leading)) >> 47).min(65536)
}

fn cosine(along: u64, squares: u128) -> u32 {
    let top = 0x1_0000_0000 * (along as u128 * along as u128);
    let mut root = cosine_guess(along, squares);
    while (root * root) as u128 * squares > top {
        root -= 1;
    }
    while ((root + 1) * (root + 1)) as u128 * squares <= top {
        root += 1;
    }
    root as u32
}

fn cos16(n: Vec3, b: Vec3) -> u32 {
    let along = short_dot(n, b);
    if along <= 0 {
        return 0;
    }
    cosine(along as u64, short_square(n) as u128 * short_square(b) as u128)
}

struct Random {
    state: u64,
}

impl Random {
    fn next(&mut self) -> u64 {
        self.state ^= self.state << 13;
        self.state ^= self.state >> 7;
        self.state ^= self.state << 17;
        self.state
    }

    fn component(&mut self, most: u32) -> i64 {
        (self.next() % (2 * most as u64 + 1)) as i64 - most as i64
    }

    fn coordinate(&mut self, most: u32) -> i64 {
        (self.next() % (most as u64 + 1)) as i64
    }

    fn vector_of_octant(&mut self, most: u32) -> Vec3 {
        let x = self.coordinate(most);
        let y = self.coordinate(most);
        let z = self.coordinate(most);
        Vec3 { x, y, z }
    }

    fn vector(&mut self, most: u32) -> Vec3 {
        let x = self.component(most);
        let y = self.component(most);
        let z = self.component(most);
        Vec3 { x, y, z }
    }
}

fn add_roots(sum: u64, words: &[u64]) -> u64 {
    words.iter().fold(sum, |total, word| total.wrapping_add(isqrt(*word as u128)))
}

fn add_lengths(sum: u64, vectors: &[Vec3]) -> u64 {
    let mut total = sum;
    for vector in vectors {
        let v = scaled(*vector, 16384);
        total = total.wrapping_add(v.x.unsigned_abs() + v.y.unsigned_abs() + v.z.unsigned_abs());
    }
    total
}

fn add_cosines(sum: u64, pairs: &[(Vec3, Vec3)]) -> u64 {
    pairs.iter().fold(sum, |total, (normal, offset)| total.wrapping_add(cos16(*normal, *offset) as u64))
}

fn report(term: &str, sum: u64, start: Instant, timed: bool) {
    if timed {
        println!("{term} {sum} {}", start.elapsed().as_nanos());
    } else {
        println!("{term} {sum}");
    }
}

fn main() {
    let words: Vec<String> = std::env::args().skip(1).collect();
    let timed = words.iter().any(|word| word == "time");
    let rounds: u32 = words.iter().find_map(|word| word.parse().ok()).unwrap_or(2);
    let mut random = Random { state: 0x9e37_79b9_7f4a_7c15 };
    let numbers: Vec<u64> = (0..1024).map(|_| random.next() >> 31).collect();
    let vectors: Vec<Vec3> = (0..1024).map(|_| random.vector(100_100_000)).collect();
    let pairs: Vec<(Vec3, Vec3)> = (0..1024)
        .map(|_| {
            let normal = random.vector_of_octant(16384);
            (normal, random.vector_of_octant(100_100_000))
        })
        .collect();

    let start = Instant::now();
    let sum = (0..rounds).fold(0, |sum, _| add_roots(sum, &numbers));
    report("isqrt", sum, start, timed);

    let start = Instant::now();
    let sum = (0..rounds).fold(0, |sum, _| add_lengths(sum, &vectors));
    report("scaled", sum, start, timed);

    let start = Instant::now();
    let sum = (0..rounds).fold(0, |sum, _| add_cosines(sum, &pairs));
    report("cos16", sum, start, timed);
}

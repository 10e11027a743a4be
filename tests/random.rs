// Random numbers, areas and order lines, the same for the same seed.

pub struct Random(u64);

impl Random {
    pub fn from(seed: u64) -> Random {
        Random(seed * 2 + 1)
    }

    pub fn below(&mut self, n: u64) -> u64 {
        self.0 ^= self.0 << 13;
        self.0 ^= self.0 >> 7;
        self.0 ^= self.0 << 17;
        (self.0 >> 11) % n
    }

    pub fn of<T: Copy>(&mut self, choices: &[T]) -> T {
        choices[self.below(choices.len() as u64) as usize]
    }
}

// A number near an end of 0 to n - 1, or anywhere in a 32-bit number's range.
pub fn near(random: &mut Random, n: u64) -> u32 {
    let most = u32::MAX as u64;
    match random.below(4) {
        0 => random.of(&[0, 1, n.wrapping_sub(2), n.wrapping_sub(1), n, n + 1, most]).min(most) as u32,
        1 => random.below(most + 1) as u32,
        _ => random.below(n.max(1)).min(most) as u32,
    }
}

// A coordinate near an end of the n from one on, or anywhere in a signed 32-bit number's range.
pub fn near_from(random: &mut Random, from: i32, n: u64) -> i32 {
    let (least, most) = (i32::MIN as i64, i32::MAX as i64);
    let (first, end) = (from as i64, from as i64 + n as i64);
    let coordinate = match random.below(4) {
        0 => random.of(&[first - 2, first - 1, first, first + 1, end - 2, end - 1, end, end + 1, 0, -1, least, most]),
        1 => random.below(1 << 32) as i64 + least,
        _ => first + random.below(n.max(1)) as i64,
    };
    coordinate.clamp(least, most) as i32
}

// The most squares that an area may have.
const MOST_SQUARES: u64 = 16_777_216;

fn either_way(random: &mut Random, one: u64, other: u64) -> (u32, u32) {
    random.of(&[(one as u32, other as u32), (other as u32, one as u32)])
}

// The sides of an accepted area, none over `most`: one of any length, and the other of any that the squares allow.
pub fn sides(random: &mut Random, most: u64) -> (u32, u32) {
    let one = 1 + random.below(most);
    let other = 1 + random.below(most.min(MOST_SQUARES / one));
    either_way(random, one, other)
}

// Sides with about as many squares as an area may have, a row more or less: accepted or not, and seldom one of them too long.
pub fn sides_at_limit(random: &mut Random) -> (u32, u32) {
    let most = random.of(&[512, 4096, 65535]);
    let one = 256 + random.below(most - 255);
    let other = MOST_SQUARES / one - 1 + random.below(4);
    either_way(random, one, other)
}

// A coordinate for an origin: mostly within the range, often about 0, or at an end of the range, beyond it, or anything.
pub fn origin(random: &mut Random) -> i32 {
    match random.below(8) {
        0 => random.of(&[1_000_000, -1_000_000, 999_999, -999_999, 1_000_001, -1_000_001, i32::MAX, i32::MIN, -i32::MAX]),
        1 => random.below(1 << 32) as u32 as i32,
        2..=4 => random.below(61) as i32 - 30,
        _ => random.below(2_000_001) as i32 - 1_000_000,
    }
}

// A field that is a number, or nearly one: plain, or with zeros before it up to about ten digits; and now and then with a minus before it.
fn field(random: &mut Random) -> Vec<u8> {
    let odd: [&[u8]; 12] = [b"", b"07", b"3E4", b"+7", b"-1", b"7.0", b"4294967295", b"4294967296", b"99999999999", b"0", b"65535", b"65536"];
    let padded: [&[u8]; 6] = [b"0000000030", b"0000000000", b"00000003E4", b"+000000007", b"-000000007", b"0000000 07"];
    let signed: [&[u8]; 8] = [b"-", b"--1", b"-0", b"1-", b"2147483647", b"2147483648", b"-2147483647", b"-2147483648"];
    let limit = [10, 100, 70000, 5_000_000_000][random.below(4) as usize];
    let digits = match random.below(10) {
        0 => random.of(&odd).to_vec(),
        1 => (0..random.below(12)).map(|_| random.below(256) as u8).filter(|&b| b != b'\n').collect(),
        2 => random.of(&padded).to_vec(),
        3 => random.of(&signed).to_vec(),
        4 => format!("{:0digits$}", random.below(limit), digits = random.of(&[2, 9, 10, 10, 11])).into_bytes(),
        _ => random.below(limit).to_string().into_bytes(),
    };
    if random.below(4) == 0 { [b"-", &digits[..]].concat() } else { digits }
}

// A number in one of its two spellings: plain, as it mostly is, or padded to ten digits. A minus stands before the digits.
fn spelt(random: &mut Random, n: impl Into<i64>) -> String {
    let n: i64 = n.into();
    let minus = if n < 0 { "-" } else { "" };
    let digits = if random.below(8) == 0 { 10 } else { 1 };
    format!("{minus}{:0digits$}", n.abs())
}

// A line that is nearly right, and seldom quite.
fn odd_line(random: &mut Random) -> Vec<u8> {
    let words: [&[u8]; 12] = [b"AREA", b"AREA", b"N", b"N", b"N", b"S", b"S", b"S", b"AREAX", b"n", b"", b"ORIGINX"];
    let mut line = if random.below(6) == 0 { b"ORIGIN".to_vec() } else { random.of(&words).to_vec() };
    let fields = if line == b"N" { 1 } else { 2 };
    for _ in 0..if random.below(10) == 0 { random.below(5) } else { fields } {
        line.extend_from_slice(if random.below(20) == 0 { random.of(&[b"  ", b"\t", b""]) } else { b" " });
        line.extend(field(random));
    }
    match random.below(30) {
        0 => line.push(b'\r'),
        1 => line.resize(60 + random.below(10) as usize, b'1'),
        _ => {}
    }
    line
}

// An area as the lines know it.
#[derive(Clone, Copy)]
struct Area {
    w: u32,
    h: u32,
    ox: i32,
    oy: i32,
}

// Random order lines, of which most are answered: they know roughly which area is in force.
pub struct Lines {
    pub random: Random,
    area: Option<Area>,
}

impl Lines {
    pub fn from(seed: u64) -> Lines {
        Lines { random: Random::from(seed), area: None }
    }

    pub fn next(&mut self) -> Vec<u8> {
        let random = &mut self.random;
        match (random.below(10), self.area) {
            (0 | 1, _) => {
                let line = odd_line(random);
                if line.starts_with(b"AREA") || line.starts_with(b"ORIGIN") {
                    self.area = None;
                }
                line
            }
            (2..=4, Some(area)) => {
                let i = near(random, area.w as u64 * area.h as u64);
                format!("N {}", spelt(random, i)).into_bytes()
            }
            (5..=7, Some(area)) => {
                let (x, y) = (near_from(random, area.ox, area.w as u64), near_from(random, area.oy, area.h as u64));
                format!("S {} {}", spelt(random, x), spelt(random, y)).into_bytes()
            }
            (8, Some(area)) => self.origin_line(area),
            _ => self.area_line(),
        }
    }

    // An ORIGIN line. Where it is refused, no area is in force.
    fn origin_line(&mut self, area: Area) -> Vec<u8> {
        let random = &mut self.random;
        let (ox, oy) = (origin(random), origin(random));
        let accepted = ox.unsigned_abs().max(oy.unsigned_abs()) <= 1_000_000;
        self.area = accepted.then_some(Area { ox, oy, ..area });
        format!("ORIGIN {} {}", spelt(random, ox), spelt(random, oy)).into_bytes()
    }

    // An AREA line, now and then one at the limit of squares. Where it is refused, no area is in force.
    fn area_line(&mut self) -> Vec<u8> {
        let random = &mut self.random;
        let most = random.of(&[10, 300, 65535]);
        let (w, h) = if random.below(8) == 0 { sides_at_limit(random) } else { sides(random, most) };
        let accepted = w.max(h) <= 65535 && w as u64 * h as u64 <= MOST_SQUARES;
        self.area = accepted.then_some(Area { w, h, ox: 0, oy: 0 });
        format!("AREA {} {}", spelt(random, w), spelt(random, h)).into_bytes()
    }
}

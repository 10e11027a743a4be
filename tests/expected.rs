// What a call through the C boundary should return and leave in its result slice, by the independent program. The test programs share it.
use crate::independent::{self, Answer, Reply};

// An area as the C functions take it.
#[derive(Clone, Copy, Debug, PartialEq)]
pub struct Area {
    pub w: u32,
    pub h: u32,
    pub ox: i32,
    pub oy: i32,
}

impl Area {
    pub const fn new(w: u32, h: u32) -> Area {
        Area { w, h, ox: 0, oy: 0 }
    }

    pub const fn at(self, ox: i32, oy: i32) -> Area {
        Area { ox, oy, ..self }
    }

    // A small area with many origins: about 0, so that its squares lie on either side of the post and on both, at the ends of the range, and beyond it.
    pub fn with_origins(self) -> Vec<Area> {
        let (w, h) = (self.w as i32, self.h as i32);
        let pairs = |of: &[i32]| -> Vec<(i32, i32)> { of.iter().flat_map(|&ox| of.iter().map(move |&oy| (ox, oy))).collect() };
        let mut all = pairs(&[-2, -1, 0, 1, 2]);
        all.extend([(-w, -h), (1 - w, 1 - h), (-w, 0), (0, -h), (999_999, -999_999)]);
        all.extend(pairs(&[-1_000_001, -1_000_000, 0, 1_000_000, 1_000_001]));
        all.extend(pairs(&[i32::MIN, 0, i32::MAX]));
        all.sort_unstable();
        all.dedup();
        all.into_iter().map(|(ox, oy)| self.at(ox, oy)).collect()
    }
}

impl From<Area> for independent::Area {
    fn from(area: Area) -> independent::Area {
        independent::Area { w: area.w.into(), h: area.h.into(), ox: area.ox.into(), oy: area.oy.into() }
    }
}

// What a place holds before a call: a number that a place of every kind can hold.
pub const UNTOUCHED: u32 = 0x5EAD_BEEF;

const SHORT: u32 = 255;

// A slice of this length before a call.
pub fn untouched<T: Clone + TryFrom<u32>>(length: usize) -> Vec<T> {
    vec![T::try_from(UNTOUCHED).ok().expect("a place can hold it"); length]
}

// What a call returned, and what it left in its result slice, of whatever kind its places are.
pub type Told = (u32, Vec<i128>);

pub fn told<T: Into<i128>>(returned: u32, result: Vec<T>) -> Told {
    (returned, result.into_iter().map(T::into).collect())
}

// The same as it is due, given what is returned and the values where there is room for them.
pub fn left(returned: u32, values: &[i64], length: usize) -> Told {
    let mut left = untouched(length);
    if length < values.len() {
        return (SHORT, left);
    }
    for (place, value) in left.iter_mut().zip(values) {
        *place = (*value).into();
    }
    (returned, left)
}

// The same, given the answer that is due and how many values it has. At a refusal each of them is 0.
pub fn due(answer: &Answer, values: usize, length: usize) -> Told {
    match answer {
        Ok(figures) => left(0, figures, length),
        Err(refusal) => left(*refusal as u32, &vec![0; values], length),
    }
}

// The same for a line under four numbers for the area in force. Those that are no accepted area, or an origin beyond the range, count as none.
pub fn line_due(area: Area, line: &[u8], length: usize) -> Told {
    let before = independent::Area::from(area);
    let (reply, after) = independent::answered(line, independent::granted(before).is_ok().then_some(before));
    let independent::Area { w, h, ox, oy } = after.unwrap_or(independent::Area::new(0, 0));
    let (returned, [kind, first, second, third]) = match reply {
        Reply::Area { squares, x, y, .. } => (0, [1, squares, x, y]),
        Reply::Cell { x, y, blocks } => (0, [2, x, y, blocks]),
        Reply::Number { number, blocks } => (0, [3, number, blocks, 0]),
        Reply::Origin { ox, oy } => (0, [4, ox, oy, 0]),
        Reply::Refused(refusal) => (refusal as u32, [0; 4]),
    };
    left(returned, &[w, h, ox, oy, kind, first, second, third], length)
}

// The area in force that a call for a line told, for the line below it.
pub fn in_force(told: &Told) -> Area {
    Area { w: told.1[0] as u32, h: told.1[1] as u32, ox: told.1[2] as i32, oy: told.1[3] as i32 }
}

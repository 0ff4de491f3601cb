//! Identifiers: lists of tuples, their order, and how a new one is made between two others.

use std::cmp::Ordering;
use std::rc::Rc;

/// A tuple as one number, whose order is that of tuples. From the highest bits on: the kind (0 is `Low`, 1 is `At`, 2 is `High`), pos,
/// replica, seq, and the offset raised by 2^31.
pub type Tuple = u128;

pub const LOW: Tuple = 0;
pub const HIGH: Tuple = 2 << 120;
/// The greatest offset of a last tuple; the least is `-GREATEST - 1`.
pub const GREATEST: i64 = (1 << 30) - 1;

pub fn at(pos: u32, replica: u32, seq: u32, offset: i32) -> Tuple {
    1 << 120 | Tuple::from(pos) << 88 | Tuple::from(replica) << 64 | Tuple::from(seq) << 32 | raised(offset)
}

fn raised(offset: i32) -> Tuple {
    Tuple::from(offset as u32 ^ 1 << 31)
}

/// The `At` tuple that is spelled by these bytes: pos, replica, seq and offset. Of a replica's number three bytes are kept.
pub fn read_tuple(bytes: &[u8; 16]) -> Tuple {
    let spelled = u128::from_be_bytes(*bytes);
    1 << 120 | spelled >> 96 << 88 | u128::from((spelled >> 64) as u32 & 0xff_ffff) << 64 | u128::from(spelled as u64 ^ 1 << 31)
}

pub fn spelled_tuple(tuple: Tuple) -> [u8; 16] {
    (u128::from(pos(tuple)) << 96 | u128::from(replica(tuple)) << 64 | u128::from(tuple as u64 ^ 1 << 31)).to_be_bytes()
}

pub fn is_at(tuple: Tuple) -> bool {
    tuple >> 120 == 1
}

pub fn pos(tuple: Tuple) -> u32 {
    (tuple >> 88) as u32
}

pub fn replica(tuple: Tuple) -> u32 {
    (tuple >> 64) as u32 & 0xff_ffff
}

pub fn seq(tuple: Tuple) -> u32 {
    (tuple >> 32) as u32
}

pub fn offset(tuple: Tuple) -> i32 {
    (tuple as u32 ^ 1 << 31) as i32
}

/// A run of identifiers, which differ in the offset of the last tuple alone. An identifier is a run of length 1.
#[derive(Clone)]
pub struct Run {
    /// The tuples, the last of them without its offset.
    pub base: Rc<[Tuple]>,
    /// The last offset of the first identifier.
    pub offset: i32,
    pub len: u32,
}

impl Run {
    /// The run whose first identifier has these tuples.
    pub fn new(tuples: &[Tuple], len: u32) -> Self {
        let mut base: Rc<[Tuple]> = Rc::from(tuples);
        let Some(last) = Rc::make_mut(&mut base).last_mut() else { unreachable!("no identifier is empty") };
        let offset = offset(*last);
        *last = *last >> 32 << 32;
        Self { base, offset, len }
    }

    /// A part of it, of this many identifiers from this one on.
    pub fn part(&self, from: u32, len: u32) -> Self {
        Self { base: self.base.clone(), offset: self.offset + from as i32, len }
    }

    /// The offset after the last one.
    pub fn end(&self) -> i32 {
        (i64::from(self.offset) + i64::from(self.len)) as i32
    }

    /// The last tuple of the first identifier.
    pub fn tuple(&self) -> Tuple {
        self.base[self.base.len() - 1] | raised(self.offset)
    }

    /// The tuples of the identifier at this place.
    pub fn tuples(&self, place: u32) -> Vec<Tuple> {
        let mut tuples = self.base.to_vec();
        tuples[self.base.len() - 1] |= raised(self.offset + place as i32);
        tuples
    }

    fn get(&self, place: usize) -> Option<Tuple> {
        if place + 1 == self.base.len() { Some(self.tuple()) } else { self.base.get(place).copied() }
    }

    pub fn has_base(&self, base: &Rc<[Tuple]>) -> bool {
        Rc::ptr_eq(&self.base, base) || self.base == *base
    }

    /// Whether the other goes on where this one ends.
    pub fn touches(&self, next: &Run) -> bool {
        self.end() == next.offset && self.has_base(&next.base)
    }

    /// The order of the first identifiers.
    pub fn compare(&self, other: &Run) -> Ordering {
        compare(&self.base, self.offset, &other.base, other.offset)
    }

    /// How many of its identifiers are below the first one of the other.
    pub fn count_below(&self, other: &Run) -> u32 {
        let last = self.base.len() - 1;
        let (mine, Some(theirs)) = (&self.base[..], other.get(last)) else {
            return if self.compare(other).is_lt() { self.len } else { 0 };
        };
        if other.base[..last] != mine[..last] || theirs >> 32 != mine[last] >> 32 {
            return if self.compare(other).is_lt() { self.len } else { 0 };
        }
        let longer = i64::from(other.base.len() > mine.len());
        (i64::from(offset(theirs)) - i64::from(self.offset) + longer).clamp(0, i64::from(self.len)) as u32
    }
}

/// The order of two identifiers, each given by a base and an offset.
pub fn compare(a: &Rc<[Tuple]>, a_offset: i32, b: &Rc<[Tuple]>, b_offset: i32) -> Ordering {
    if Rc::ptr_eq(a, b) {
        return a_offset.cmp(&b_offset);
    }
    let common = a.len().min(b.len()) - 1;
    let tuple = |base: &[Tuple], offset| if base.len() == common + 1 { base[common] | raised(offset) } else { base[common] };
    a[..common].cmp(&b[..common]).then_with(|| tuple(a, a_offset).cmp(&tuple(b, b_offset))).then(a.len().cmp(&b.len()))
}

/// The pos of a bound's tuple, by which the middle is found.
fn number(tuple: Tuple) -> u64 {
    match tuple >> 120 {
        0 => 0,
        1 => u64::from(pos(tuple)),
        _ => u64::from(u32::MAX),
    }
}

/// A new identifier between two, which needn't be there: the middle position of the first place where there is room.
pub fn between(low: Option<&Run>, high: Option<&Run>, replica: u32, seq: u32) -> Run {
    let mut made = Vec::with_capacity(1 + low.map_or(0, |it| it.base.len()).max(high.map_or(0, |it| it.base.len())));
    let mut bound = high;
    loop {
        let place = made.len();
        let lower = low.and_then(|it| it.get(place));
        let upper = bound.and_then(|it| it.get(place));
        let (from, to) = (lower.map_or(0, number), upper.map_or(u64::from(u32::MAX), number));
        if to >= from + 2 {
            made.push(at(((from + to) / 2) as u32, replica, seq, 0));
            return Run::new(&made, 1);
        }
        let inner = bound.is_some_and(|it| place + 1 < it.base.len());
        let next = lower.unwrap_or_else(|| upper.unwrap_or(LOW) - u128::from(!inner));
        made.push(next);
        if upper != Some(next) {
            bound = None;
        }
    }
}

/// Appends a run to a list of runs, and joins it with the last one if they touch.
pub fn push_joined(runs: &mut Vec<Run>, run: Run) {
    match runs.last_mut() {
        Some(last) if last.touches(&run) => last.len += run.len,
        _ => runs.push(run),
    }
}

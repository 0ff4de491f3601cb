//! Bytes of identifiers and operations: docs/FORMATS.md, "Parts".

use crate::epochs::Name;
use crate::ident::{is_at, offset, read_tuple, spelled_tuple, Run, Tuple, GREATEST, HIGH, LOW};

/// Bytes aren't right from this place on.
pub struct Damaged(pub usize);

pub type Read<T> = Result<T, Damaged>;

pub struct Reader<'a> {
    pub bytes: &'a [u8],
    pub at: usize,
    pub members: usize,
    room: Vec<Tuple>,
}

/// An operation, and the bytes that spell it.
pub struct Op<'a> {
    pub author: u32,
    pub seq: u32,
    /// The counts, each spelled.
    pub context: &'a [u8],
    pub epoch: Name,
    pub body: Body<'a>,
    pub bytes: &'a [u8],
}

pub enum Body<'a> {
    Insert(Run, &'a str),
    Delete(Vec<Run>),
    Rename(Vec<Run>),
    Leave,
}

fn number(bytes: &[u8]) -> u32 {
    bytes.iter().fold(0, |number, &byte| number << 8 | u32::from(byte))
}

/// The author and the number of an operation that is spelled.
pub fn author_and_seq(op: &[u8]) -> (u32, u32) {
    (number(&op[..4]), number(&op[4..8]))
}

pub fn epoch_of(op: &[u8], members: usize) -> Name {
    let name = &op[8 + 4 * members..];
    (name[0] == 1).then(|| (number(&name[1..5]), number(&name[5..9])))
}

/// Whether each of these counts, which are spelled, is at most the other.
pub fn is_at_most(context: &[u8], counts: &[u32]) -> bool {
    context.chunks_exact(4).zip(counts).all(|(spelled, &count)| number(spelled) <= count)
}

impl<'a> Reader<'a> {
    pub fn new(bytes: &'a [u8], at: usize, members: usize) -> Self {
        Self { bytes, at, members, room: Vec::new() }
    }

    pub fn take(&mut self, count: usize) -> Read<&'a [u8]> {
        let rest = &self.bytes[self.at..];
        let bytes = rest.get(..count).ok_or(Damaged(self.at))?;
        self.at += count;
        Ok(bytes)
    }

    /// Fails at the place before the last field, of this many bytes, unless that is right.
    pub fn check(&self, right: bool, size: usize) -> Read<()> {
        if right { Ok(()) } else { Err(Damaged(self.at - size)) }
    }

    pub fn u8(&mut self) -> Read<u8> {
        Ok(self.take(1)?[0])
    }

    pub fn u32(&mut self) -> Read<u32> {
        Ok(number(self.take(4)?))
    }

    pub fn u64(&mut self) -> Read<u64> {
        Ok(u64::from(self.u32()?) << 32 | u64::from(self.u32()?))
    }

    pub fn vector(&mut self) -> Read<Vec<u32>> {
        Ok(self.take(4 * self.members)?.chunks(4).map(number).collect())
    }

    pub fn name(&mut self) -> Read<Name> {
        let kind = self.u8()?;
        self.check(kind < 2, 1)?;
        if kind == 0 { Ok(None) } else { Ok(Some((self.u32()?, self.u32()?))) }
    }

    /// A tuple. Replicas are members, so their numbers are small.
    #[inline(always)]
    fn tuple(&mut self) -> Read<Tuple> {
        match self.u8()? {
            0 => Ok(LOW),
            1 => {
                let tuple = read_tuple(self.take(16)?.first_chunk().unwrap_or(&[0; 16]));
                self.check((-GREATEST - 2..=GREATEST).contains(&i64::from(offset(tuple))), 4)?;
                Ok(tuple)
            }
            2 => Ok(HIGH),
            _ => Err(Damaged(self.at - 1)),
        }
    }

    /// An identifier's tuples are read, and each is handed on; the last offset.
    #[inline(always)]
    fn tuples(&mut self, mut each: impl FnMut(Tuple)) -> Read<i32> {
        let count = self.u32()?;
        self.check(count > 0, 4)?;
        let mut last = LOW;
        for _ in 0..count {
            last = self.tuple()?;
            each(last);
        }
        self.check(is_at(last) && i64::from(offset(last)) >= -GREATEST - 1, 4)?;
        Ok(offset(last))
    }

    fn ident(&mut self) -> Read<Run> {
        let mut tuples = std::mem::take(&mut self.room);
        tuples.clear();
        self.tuples(|tuple| tuples.push(tuple))?;
        let run = Run::new(&tuples, 1);
        self.room = tuples;
        Ok(run)
    }

    fn len_after(&mut self, last: i32) -> Read<u32> {
        let len = self.u32()?;
        self.check(len > 0 && i64::from(last) + i64::from(len) <= GREATEST + 1, 4)?;
        Ok(len)
    }

    pub fn run(&mut self) -> Read<Run> {
        let mut run = self.ident()?;
        run.len = self.len_after(run.offset)?;
        Ok(run)
    }

    pub fn runs(&mut self) -> Read<Vec<Run>> {
        let (count, mut runs) = (self.u32()?, Vec::new());
        for _ in 0..count {
            let (begin, run) = (self.at, self.run()?);
            let is_above = runs.last().is_none_or(|last: &Run| last.part(last.len - 1, 1).compare(&run).is_lt() && !last.touches(&run));
            if !is_above {
                return Err(Damaged(begin));
            }
            runs.push(run);
        }
        Ok(runs)
    }

    pub fn text(&mut self) -> Read<&'a str> {
        let len = self.u32()? as usize;
        let begin = self.at;
        std::str::from_utf8(self.take(len)?).map_err(|_| Damaged(begin))
    }

    pub fn op(&mut self) -> Read<Op<'a>> {
        let begin = self.at;
        let (author, seq, context, epoch) = (self.u32()?, self.u32()?, self.take(4 * self.members)?, self.name()?);
        self.check((author as usize) < self.members, 4)?;
        let body = match self.u8()? {
            0 => {
                let mut first = self.ident()?;
                let text = self.text()?;
                first.len = text.chars().count() as u32;
                Body::Insert(first, text)
            }
            1 => Body::Delete(self.runs()?),
            2 => Body::Rename(self.runs()?),
            3 => Body::Leave,
            _ => return Err(Damaged(self.at - 1)),
        };
        Ok(Op { author, seq, context, epoch, body, bytes: &self.bytes[begin..self.at] })
    }

    /// Goes past an operation, and looks at each of its fields, but makes nothing of them.
    pub fn skip_op(&mut self) -> Read<()> {
        let author = self.u32()?;
        self.check((author as usize) < self.members, 4)?;
        self.take(4 + 4 * self.members)?;
        self.name()?;
        match self.u8()? {
            0 => {
                self.tuples(|_| ())?;
                self.text()?;
            }
            1 | 2 => {
                for _ in 0..self.u32()? {
                    let last = self.tuples(|_| ())?;
                    self.len_after(last)?;
                }
            }
            3 => (),
            _ => return Err(Damaged(self.at - 1)),
        }
        Ok(())
    }
}

/// Bytes that are being written.
pub trait Write {
    fn u32(&mut self, number: u32);
    fn u64(&mut self, number: u64);
    fn vector(&mut self, counts: &[u32]);
    fn name(&mut self, name: Name);
    fn ident(&mut self, first: &Run);
    fn runs(&mut self, runs: &[Run]);
    fn text(&mut self, text: &str);
}

impl Write for Vec<u8> {
    fn u32(&mut self, number: u32) {
        self.extend_from_slice(&number.to_be_bytes());
    }

    fn u64(&mut self, number: u64) {
        self.extend_from_slice(&number.to_be_bytes());
    }

    fn vector(&mut self, counts: &[u32]) {
        counts.iter().for_each(|&count| self.u32(count));
    }

    fn name(&mut self, name: Name) {
        self.push(u8::from(name.is_some()));
        if let Some((replica, seq)) = name {
            self.u32(replica);
            self.u32(seq);
        }
    }

    fn ident(&mut self, first: &Run) {
        self.u32(first.base.len() as u32);
        self.reserve(17 * first.base.len());
        let (last, inner) = (first.tuple(), &first.base[..first.base.len() - 1]);
        for &tuple in inner.iter().chain([&last]) {
            let mut spelled = [(tuple >> 120) as u8; 17];
            spelled[1..].copy_from_slice(&spelled_tuple(tuple));
            self.extend_from_slice(if is_at(tuple) { &spelled } else { &spelled[..1] });
        }
    }

    fn runs(&mut self, runs: &[Run]) {
        self.u32(runs.len() as u32);
        for run in runs {
            self.ident(run);
            self.u32(run.len);
        }
    }

    fn text(&mut self, text: &str) {
        self.u32(text.len() as u32);
        self.extend_from_slice(text.as_bytes());
    }
}

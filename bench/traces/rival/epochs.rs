//! Epochs, the states between renames, and how identifiers are translated from one to another.

use std::cmp::Ordering;
use std::collections::HashMap;

use crate::ident::{at, is_at, offset, pos, push_joined, Run, Tuple, HIGH, LOW};

/// An epoch's name: none is the origin; else the replica and the number of the rename that opened it.
pub type Name = Option<(u32, u32)>;

/// A rename's former identifiers, in order.
pub struct Renaming {
    pub former: Vec<Run>,
    /// How many identifiers stand before each former run, and at last their number.
    starts: Vec<i32>,
    /// The first new identifier; number i has an offset greater by i.
    first: Tuple,
}

/// Whether y is under the pattern: a prefix of it repeated for ever, or less where it first differs.
fn is_under(y: &[Tuple], pattern: &[Tuple]) -> bool {
    let differs = y.iter().zip(pattern.iter().cycle()).map(|(a, b)| a.cmp(b)).find(|order| order.is_ne());
    differs != Some(Ordering::Greater)
}

/// An identifier on its way, and on which side of each pattern it was. Along a run each side changes at most once.
struct Way {
    tuples: Vec<Tuple>,
    sides: Vec<bool>,
}

impl Way {
    fn add(&mut self, prefix: &[Tuple]) {
        self.tuples.splice(0..0, prefix.iter().copied());
    }

    fn is_under(&mut self, pattern: &[Tuple]) -> bool {
        let under = is_under(&self.tuples, pattern);
        self.sides.push(under);
        under
    }

    fn low(&mut self, pattern: &[Tuple]) {
        if self.is_under(pattern) {
            self.add(pattern);
        }
    }

    fn high(&mut self, pattern: &[Tuple]) {
        if !self.is_under(pattern) {
            self.add(pattern);
        }
    }

    fn low_back(&mut self, pattern: &[Tuple]) {
        if self.is_under(pattern) {
            self.tuples.drain(..pattern.len());
        }
    }

    fn high_back(&mut self, pattern: &[Tuple]) {
        if !self.is_under(pattern) {
            self.tuples.drain(..pattern.len());
        }
    }
}

fn with(mut tuples: Vec<Tuple>, last: Tuple) -> Vec<Tuple> {
    tuples.push(last);
    tuples
}

/// The identifier with its last offset less one, and `High` after it.
fn below(mut tuples: Vec<Tuple>) -> Vec<Tuple> {
    if let Some(last) = tuples.last_mut() {
        *last -= 1;
    }
    with(tuples, HIGH)
}

/// The patterns of a gap's old map and of its new one.
struct Gap {
    low: Option<Vec<Tuple>>,
    high: Option<Vec<Tuple>>,
    new: Tuple,
}

impl Gap {
    fn forward(&self, tuples: Vec<Tuple>) -> Way {
        let mut way = Way { tuples, sides: Vec::new() };
        if let Some(low) = &self.low {
            way.low_back(low);
        }
        if let Some(high) = &self.high {
            way.high_back(high);
        }
        match (&self.low, &self.high) {
            (None, _) => way.high(&[self.new - 1]),
            (_, None) => way.low(&[self.new]),
            _ => way.add(&[self.new]),
        }
        way
    }

    fn back(&self, tuples: Vec<Tuple>) -> Way {
        let mut way = Way { tuples, sides: Vec::new() };
        match (&self.low, &self.high) {
            (None, _) => way.high_back(&[self.new - 1]),
            (_, None) => way.low_back(&[self.new]),
            _ => drop(way.tuples.remove(0)),
        }
        if let Some(high) = &self.high {
            way.high(high);
        }
        if let Some(low) = &self.low {
            way.low(low);
        }
        way
    }
}

/// Translates a run, piece by piece: in each all identifiers are on the same sides.
fn pieces(run: &Run, translate: impl Fn(Vec<Tuple>) -> Way, out: &mut Vec<Run>) {
    let mut from = 0;
    while from < run.len {
        let first = translate(run.tuples(from));
        let same = |place| translate(run.tuples(place)).sides == first.sides;
        let (mut within, mut beyond) = (from, run.len);
        if same(run.len - 1) {
            within = run.len - 1;
        }
        while within + 1 < beyond {
            let middle = within + (beyond - within) / 2;
            if same(middle) { within = middle } else { beyond = middle }
        }
        push_joined(out, Run::new(&first.tuples, within + 1 - from));
        from = within + 1;
    }
}

impl Renaming {
    pub fn new(former: Vec<Run>, replica: u32, seq: u32) -> Self {
        let mut starts = vec![0];
        for run in &former {
            starts.push(starts[starts.len() - 1] + run.len as i32);
        }
        let front = former[0].tuples(0).into_iter().find(|&tuple| is_at(tuple)).map_or(0, pos);
        Self { former, starts, first: at(front, replica, seq, 0) }
    }

    pub fn total(&self) -> i32 {
        self.starts[self.former.len()]
    }

    fn new_id(&self, i: i32) -> Tuple {
        self.first + i as Tuple
    }

    /// The former identifiers from this one on, in its run.
    fn former_from(&self, i: i32) -> Run {
        let run = self.starts.partition_point(|&start| start <= i) - 1;
        let from = (i - self.starts[run]) as u32;
        self.former[run].part(from, self.former[run].len - from)
    }

    /// The gap before the former identifier of this number.
    fn gap(&self, i: i32) -> Gap {
        let low = (i > 0).then(|| with(self.former_from(i - 1).tuples(0), LOW));
        let high = (i < self.total()).then(|| {
            let mut next = Way { tuples: self.former_from(i).tuples(0), sides: Vec::new() };
            if let Some(low) = &low {
                next.low_back(low);
            }
            below(next.tuples)
        });
        Gap { low, high, new: self.new_id((i - 1).max(0)) }
    }

    /// How many former identifiers are below this one, and whether it is one of them.
    fn find(&self, id: &Run) -> (i32, bool) {
        let after = self.former.partition_point(|run| run.compare(id).is_le());
        let Some(i) = after.checked_sub(1) else { return (0, false) };
        let run = &self.former[i];
        let below = run.count_below(id);
        let found = below < run.len && run.offset + below as i32 == id.offset && run.has_base(&id.base);
        (self.starts[i] + below as i32, found)
    }

    /// The runs of the images of a run's identifiers.
    fn forward(&self, run: &Run, out: &mut Vec<Run>) {
        let mut from = 0;
        while from < run.len {
            let rest = run.part(from, run.len - from);
            let (i, found) = self.find(&rest);
            let count;
            if found {
                count = rest.len.min(self.former_from(i).len);
                push_joined(out, Run::new(&[self.new_id(i)], count));
            } else {
                count = if i < self.total() { rest.count_below(&self.former_from(i)) } else { rest.len };
                let gap = self.gap(i);
                pieces(&rest.part(0, count), |tuples| gap.forward(tuples), out);
            }
            from += count;
        }
    }

    /// The runs of the identifiers of which a run's are the images.
    fn back(&self, run: &Run, out: &mut Vec<Run>) {
        let (total, mut from) = (self.total(), 0);
        while from < run.len {
            let rest = run.part(from, run.len - from);
            let first = rest.tuples(0)[0];
            let is_new = first >> 32 == self.first >> 32;
            let i = if is_new { offset(first).clamp(-1, total) } else if first < self.first { -1 } else { total };
            let count;
            if is_new && rest.base.len() == 1 && (0..total).contains(&i) {
                let former = self.former_from(i);
                count = rest.len.min(former.len);
                push_joined(out, former.part(0, count));
            } else {
                let to_first = rest.base.len() == 1 && is_new && i < 0;
                count = if to_first { rest.len.min(-rest.offset as u32) } else { rest.len };
                let gap = self.gap((i + 1).clamp(0, total));
                pieces(&rest.part(0, count), |tuples| gap.back(tuples), out);
            }
            from += count;
        }
    }
}

/// An epoch that is known: its name, its parent's place in the list, and the rename that opened it (none if it is the topmost).
pub struct Epoch {
    pub name: Name,
    pub parent: usize,
    pub renaming: Option<Renaming>,
}

pub struct Epochs {
    pub list: Vec<Epoch>,
    places: HashMap<Name, usize>,
    pub greatest: usize,
}

impl Epochs {
    pub fn new(top: Name) -> Self {
        Self { list: vec![Epoch { name: top, parent: 0, renaming: None }], places: HashMap::from([(top, 0)]), greatest: 0 }
    }

    pub fn place(&self, name: Name) -> Option<usize> {
        if self.list[self.greatest].name == name { Some(self.greatest) } else { self.places.get(&name).copied() }
    }

    pub fn add(&mut self, author: u32, seq: u32, parent: usize, former: Vec<Run>) {
        let name = Some((author, seq));
        self.places.insert(name, self.list.len());
        self.list.push(Epoch { name, parent, renaming: Some(Renaming::new(former, author, seq)) });
        if self.compare(self.list.len() - 1, self.greatest).is_gt() {
            self.greatest = self.list.len() - 1;
        }
    }

    /// The epochs on the way up from this one to the topmost.
    pub fn way_up(&self, mut epoch: usize) -> Vec<usize> {
        let mut way = vec![epoch];
        while epoch != 0 {
            epoch = self.list[epoch].parent;
            way.push(epoch);
        }
        way
    }

    pub fn compare(&self, a: usize, b: usize) -> Ordering {
        let (a, b) = (self.way_up(a), self.way_up(b));
        a.iter().rev().map(|&it| self.list[it].name).cmp(b.iter().rev().map(|&it| self.list[it].name))
    }

    /// The greatest epoch that the vector has.
    pub fn greatest_within(&self, counts: &[u32]) -> usize {
        let known = |it: &usize| self.list[*it].name.is_none_or(|(replica, seq)| seq <= counts[replica as usize]);
        (0..self.list.len()).filter(known).max_by(|&a, &b| self.compare(a, b)).unwrap_or(0)
    }

    /// Translates runs from one epoch to another.
    pub fn translate(&self, from: usize, to: usize, mut runs: Vec<Run>) -> Vec<Run> {
        let (mut up, mut down) = (self.way_up(from), self.way_up(to));
        while up.len() > 1 && down.len() > 1 && up[up.len() - 2] == down[down.len() - 2] {
            up.pop();
            down.pop();
        }
        let step = |runs: Vec<Run>, epoch: usize, is_back: bool| {
            let mut out = Vec::new();
            if let Some(renaming) = &self.list[epoch].renaming {
                runs.iter().for_each(|run| if is_back { renaming.back(run, &mut out) } else { renaming.forward(run, &mut out) });
            }
            out
        };
        up.pop();
        down.pop();
        for epoch in up {
            runs = step(runs, epoch, true);
        }
        for epoch in down.into_iter().rev() {
            runs = step(runs, epoch, false);
        }
        runs
    }
}

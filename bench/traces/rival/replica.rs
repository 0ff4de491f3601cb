//! A replica: its text, and what it knows of operations and of the other members.

use std::collections::BTreeMap;

use crate::epochs::Epochs;
use crate::format::{author_and_seq, epoch_of, is_at_most, Body, Op, Read, Reader, Write};
use crate::ident::{between, offset, replica, seq, Run, GREATEST};
use crate::text::{byte_of, Text};

/// A row of offsets that one author has used: those from low on, below next.
#[derive(Clone)]
pub struct Stem {
    pub s0: u32,
    pub low: i32,
    pub next: i32,
}

/// The operations that some member isn't known to have, as they are spelled: those of the file first, where they are in it.
#[derive(Default)]
pub struct Log {
    pub file: Vec<u8>,
    pub new: Vec<u8>,
    /// Where each begins, in the file and then in what is new, and the end of the last one in the file.
    pub starts: Vec<u32>,
    pub file_end: usize,
}

impl Log {
    /// The operations in order, each spelled.
    pub fn ops(&self) -> impl Iterator<Item = &[u8]> {
        let all = self.file.len() + self.new.len();
        (0..self.starts.len()).map(move |i| {
            let start = self.starts[i] as usize;
            let end = self.starts.get(i + 1).map_or(all, |&next| next as usize);
            match start.checked_sub(self.file.len()) {
                None => &self.file[start..end.min(self.file_end)],
                Some(start) => &self.new[start..end - self.file.len()],
            }
        })
    }

    fn begin(&mut self) {
        self.starts.push((self.file.len() + self.new.len()) as u32);
    }
}

pub struct Replica {
    pub group: u64,
    pub me: u32,
    /// What each member is known to have; the own row is what this one has.
    pub rows: Vec<Vec<u32>>,
    pub left: Vec<bool>,
    pub stems: Vec<Vec<Stem>>,
    pub epochs: Epochs,
    pub text: Text,
    pub log: Log,
    /// Operations that wait for others, each spelled, by author and number.
    pub waiting: BTreeMap<(u32, u32), Vec<u8>>,
}

/// What became of the operations of a message.
#[derive(Default)]
pub struct Taken {
    pub applied: u64,
    pub released: u64,
    pub repeated: u64,
    pub held: u64,
}

impl Replica {
    pub fn new(group: u64, me: u32, members: usize) -> Self {
        Self {
            group,
            me,
            rows: vec![vec![0; members]; members],
            left: vec![false; members],
            stems: vec![Vec::new(); members],
            epochs: Epochs::new(None),
            text: Text::new(),
            log: Log::default(),
            waiting: BTreeMap::new(),
        }
    }

    pub fn members(&self) -> usize {
        self.rows.len()
    }

    pub fn counts(&self) -> &[u32] {
        &self.rows[self.me as usize]
    }

    /// What every member that hasn't left is known to have.
    pub fn stable(&self) -> Vec<u32> {
        let mut least = self.counts().to_vec();
        for (row, _) in self.rows.iter().zip(&self.left).filter(|(_, &left)| !left) {
            least.iter_mut().zip(row).for_each(|(least, &count)| *least = count.min(*least));
        }
        least
    }

    /// Whether nobody is left who might need what is edited here.
    fn is_alone(&self) -> bool {
        (0..self.members()).all(|member| member == self.me as usize || self.left[member])
    }

    fn stem(&self, author: u32, s0: u32) -> Option<usize> {
        self.stems[author as usize].binary_search_by_key(&s0, |stem| stem.s0).ok()
    }

    /// This member's stem to which an identifier belongs.
    fn own_stem(&mut self, id: &Run) -> Option<&mut Stem> {
        let stem = if replica(id.tuple()) == self.me { self.stem(self.me, seq(id.tuple())) } else { None };
        stem.map(|i| &mut self.stems[self.me as usize][i])
    }

    // ---- own edits

    pub fn insert(&mut self, place: usize, text: &str) {
        let len = text.chars().count() as u32;
        let number = self.counts()[self.me as usize] + 1;
        let run = self.new_run(place, len, number);
        self.write_head(number, 0);
        self.log.new.ident(&run);
        self.log.new.text(text);
        self.text.insert(place, &run, text);
        self.accept_own(number);
    }

    /// The identifiers of an insertion: they go on with an own stem, at its end or at its front, or begin a new one.
    fn new_run(&mut self, place: usize, len: u32, number: u32) -> Run {
        let (left, right) = self.text.around(place);
        let (left, right) = (left.as_ref(), right.as_ref());
        if let Some(run) = self.appended(left, right, len).or_else(|| self.prepended(left, right, len)) {
            return run;
        }
        self.stems[self.me as usize].push(Stem { s0: number, low: 0, next: len as i32 });
        Run { len, ..between(left, right, self.me, number) }
    }

    fn appended(&mut self, left: Option<&Run>, right: Option<&Run>, len: u32) -> Option<Run> {
        let left = left?;
        let stem = self.own_stem(left)?;
        let run = Run { base: left.base.clone(), offset: left.offset + 1, len };
        let fits = i64::from(left.offset) + i64::from(len) <= GREATEST && stem.next == run.offset;
        if !fits || right.is_some_and(|right| run.part(len - 1, 1).compare(right).is_ge()) {
            return None;
        }
        stem.next = run.end();
        Some(run)
    }

    fn prepended(&mut self, left: Option<&Run>, right: Option<&Run>, len: u32) -> Option<Run> {
        let right = right?;
        let stem = self.own_stem(right)?;
        let fits = i64::from(right.offset) - i64::from(len) >= -GREATEST - 1 && stem.low == right.offset;
        let run = Run { base: right.base.clone(), offset: right.offset - len as i32, len };
        if !fits || left.is_some_and(|left| left.compare(&run).is_ge()) {
            return None;
        }
        stem.low = run.offset;
        Some(run)
    }

    pub fn delete(&mut self, place: usize, count: usize) {
        let number = self.counts()[self.me as usize] + 1;
        let runs = self.text.runs(place, count);
        self.write_head(number, 1);
        self.log.new.runs(&runs);
        self.text.remove(place, count);
        self.accept_own(number);
    }

    pub fn rename(&mut self) {
        let number = self.counts()[self.me as usize] + 1;
        let former = self.text.runs(0, self.text.len());
        self.write_head(number, 2);
        self.log.new.runs(&former);
        self.open_epoch(self.me, number, self.epochs.greatest, former);
        self.accept_own(number);
    }

    pub fn leave(&mut self) {
        let number = self.counts()[self.me as usize] + 1;
        self.write_head(number, 3);
        self.left[self.me as usize] = true;
        self.accept_own(number);
    }

    /// Begins an own operation in the log.
    fn write_head(&mut self, number: u32, kind: u8) {
        self.log.begin();
        let new = &mut self.log.new;
        new.u32(self.me);
        new.u32(number);
        new.vector(&self.rows[self.me as usize]);
        new.name(self.epochs.list[self.epochs.greatest].name);
        new.push(kind);
    }

    fn accept_own(&mut self, number: u32) {
        if self.is_alone() {
            let end = self.log.starts.pop().map_or(0, |start| start as usize - self.log.file.len());
            self.log.new.truncate(end);
        }
        self.rows[self.me as usize][self.me as usize] = number;
    }

    // ---- operations of others

    /// Takes operations, each spelled after the other, and releases those that waited for them.
    pub fn take(&mut self, reader: &mut Reader, count: u32) -> Read<Taken> {
        let mut taken = Taken::default();
        for _ in 0..count {
            let op = reader.op()?;
            if op.seq <= self.counts()[op.author as usize] {
                taken.repeated += 1;
            } else if is_at_most(op.context, self.counts()) {
                self.apply(&op);
                taken.applied += 1;
            } else {
                self.waiting.insert((op.author, op.seq), op.bytes.to_vec());
                taken.held += 1;
            }
            while let Some(bytes) = self.ready()? {
                self.apply(&Reader::new(&bytes, 0, self.members()).op()?);
                taken.released += 1;
            }
        }
        Ok(taken)
    }

    /// Takes out the first waiting operation that waits for nothing any more.
    fn ready(&mut self) -> Read<Option<Vec<u8>>> {
        let mut found = None;
        for (&name, bytes) in &self.waiting {
            if is_at_most(Reader::new(bytes, 8, self.members()).take(4 * self.members())?, self.counts()) {
                found = Some(name);
                break;
            }
        }
        Ok(found.and_then(|name| self.waiting.remove(&name)))
    }

    pub fn acknowledge(&mut self, from: u32, counts: &[u32]) {
        let is_new = from != self.me && counts[from as usize] <= self.counts()[from as usize];
        if is_new {
            self.rows[from as usize].iter_mut().zip(counts).for_each(|(row, &count)| *row = count.max(*row));
        }
    }

    fn apply(&mut self, op: &Op) {
        // (a member who keeps the rules names no epoch that isn't known)
        let epoch = self.epochs.place(op.epoch).unwrap_or(0);
        match &op.body {
            Body::Insert(run, text) => {
                self.note_stem(op, run);
                self.insert_runs(self.current(epoch, vec![run.clone()]), text);
            }
            Body::Delete(runs) => self.remove_runs(&self.current(epoch, runs.clone())),
            Body::Rename(runs) => self.open_epoch(op.author, op.seq, epoch, runs.clone()),
            Body::Leave => self.left[op.author as usize] = true,
        }
        self.rows[self.me as usize][op.author as usize] = op.seq;
        self.log.begin();
        self.log.new.extend_from_slice(op.bytes);
    }

    fn current(&self, epoch: usize, runs: Vec<Run>) -> Vec<Run> {
        if epoch == self.epochs.greatest { runs } else { self.epochs.translate(epoch, self.epochs.greatest, runs) }
    }

    fn note_stem(&mut self, op: &Op, run: &Run) {
        let (s0, k) = (seq(run.tuple()), offset(run.tuple()));
        match self.stem(op.author, s0).map(|i| &mut self.stems[op.author as usize][i]) {
            None => self.stems[op.author as usize].push(Stem { s0, low: 0, next: run.end() }),
            Some(stem) if stem.next == k => stem.next = run.end(),
            Some(stem) => stem.low = stem.low.min(k),
        }
    }

    fn insert_runs(&mut self, runs: Vec<Run>, mut text: &str) {
        for run in runs {
            let mut from = 0;
            while from < run.len {
                let rest = run.part(from, run.len - from);
                let place = self.text.find(&rest).unwrap_or_else(|place| place);
                let count = self.text.run_at(place).map_or(rest.len, |next| rest.count_below(&next));
                let (here, more) = text.split_at(byte_of(text, count));
                self.text.insert(place, &rest.part(0, count), here);
                text = more;
                from += count;
            }
        }
    }

    fn remove_runs(&mut self, runs: &[Run]) {
        for run in runs {
            let mut from = 0;
            while from < run.len {
                let rest = run.part(from, run.len - from);
                let place = self.text.find(&rest);
                let next = self.text.run_at(place.unwrap_or_else(|place| place));
                from += match (place, next) {
                    (Ok(place), Some(here)) => {
                        let count = rest.len.min(here.len);
                        self.text.remove(place, count as usize);
                        count
                    }
                    // (those below the next one in the text are gone)
                    (_, Some(next)) => rest.count_below(&next),
                    (_, None) => rest.len,
                };
            }
        }
    }

    fn open_epoch(&mut self, author: u32, number: u32, parent: usize, former: Vec<Run>) {
        let before = self.epochs.greatest;
        self.epochs.add(author, number, parent, former);
        let next = self.epochs.list.last().and_then(|epoch| epoch.renaming.as_ref()).map_or(0, |renaming| renaming.total());
        self.stems[author as usize].push(Stem { s0: number, low: 0, next });
        if self.epochs.greatest != before {
            self.translate_text(before);
        }
    }

    /// Gives the text the identifiers of the greatest epoch.
    fn translate_text(&mut self, before: usize) {
        let mut all = String::new();
        self.text.visit(|block| all.push_str(&block.text));
        let runs = self.epochs.translate(before, self.epochs.greatest, self.text.runs(0, self.text.len()));
        self.text = Text::new();
        let mut rest = &all[..];
        for run in runs {
            let (text, more) = rest.split_at(byte_of(rest, run.len));
            self.text.push(&run, text);
            rest = more;
        }
    }

    // ---- what is kept

    /// The unstable operations.
    pub fn unstable<'a>(&'a self, stable: &'a [u32]) -> impl Iterator<Item = &'a [u8]> {
        self.log.ops().filter(|op| {
            let (author, number) = author_and_seq(op);
            number > stable[author as usize]
        })
    }

    /// The epochs that are kept, in order: the least connected part of the tree that has the greatest one, those that are at least the
    /// greatest stable one, and those of the unstable operations.
    pub fn retained(&self, stable: &[u32]) -> Vec<usize> {
        let least = self.epochs.greatest_within(stable);
        let mut needed: Vec<bool> = (0..self.epochs.list.len()).map(|it| self.epochs.compare(it, least).is_ge()).collect();
        if needed.len() > 1 {
            for op in self.unstable(stable) {
                needed[self.epochs.place(epoch_of(op, self.members())).unwrap_or(0)] = true;
            }
        }
        let ways: Vec<Vec<usize>> = (0..needed.len()).filter(|&it| needed[it]).map(|it| self.epochs.way_up(it)).collect();
        let from_top = |way: &[usize], k| way.iter().rev().nth(k).copied();
        let is_shared = |k| from_top(&ways[0], k).is_some() && ways.iter().all(|way| from_top(way, k) == from_top(&ways[0], k));
        let shared = (1..).take_while(|&k| is_shared(k)).count();
        let mut kept: Vec<usize> = ways.iter().flat_map(|way| way[..way.len() - shared].iter().copied()).collect();
        kept.sort_by(|&a, &b| self.epochs.compare(a, b));
        kept.dedup();
        kept
    }
}

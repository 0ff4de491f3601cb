//! The text: blocks of characters whose identifiers make a run, in a tree with wide nodes that counts characters.

use std::cmp::Ordering;

use crate::ident::{push_joined, Run};

/// The most characters of a block, and the most blocks or children of a node.
const MOST_CHARS: u32 = 1024;
const MOST: usize = 30;

/// Where the character of this number begins.
pub fn byte_of(text: &str, place: u32) -> usize {
    text.char_indices().nth(place as usize).map_or(text.len(), |(byte, _)| byte)
}

/// A run of characters.
pub struct Block {
    pub run: Run,
    pub text: String,
}

impl Block {
    /// Where this character begins in the text.
    fn byte(&self, place: u32) -> usize {
        if self.text.len() == self.run.len as usize {
            place as usize
        } else if place == self.run.len {
            self.text.len()
        } else if place > self.run.len / 2 {
            self.text.char_indices().rev().nth((self.run.len - place - 1) as usize).map_or(0, |(byte, _)| byte)
        } else {
            byte_of(&self.text, place)
        }
    }

    fn split_off(&mut self, place: u32) -> Block {
        let byte = self.byte(place);
        let text = self.text.split_off(byte);
        let run = self.run.part(place, self.run.len - place);
        self.run.len = place;
        Block { run, text }
    }

    fn remove(&mut self, from: u32, count: u32) {
        let bytes = self.byte(from)..self.byte(from + count);
        self.text.drain(bytes);
        self.run.len -= count;
        if from == 0 {
            self.run.offset += count as i32;
        }
    }

    /// Takes up the next block, if it touches this one and both have room in one.
    fn join(&mut self, run: &Run, text: &str) -> bool {
        let fits = self.run.len + run.len <= MOST_CHARS && self.run.touches(run);
        if fits {
            self.text.push_str(text);
            self.run.len += run.len;
        }
        fits
    }

    fn join_front(&mut self, run: &Run, text: &str) -> bool {
        let fits = self.run.len + run.len <= MOST_CHARS && run.touches(&self.run);
        if fits {
            self.text.insert_str(0, text);
            self.run.offset = run.offset;
            self.run.len += run.len;
        }
        fits
    }
}

enum Node {
    Leaf(Vec<Block>),
    Inner(Vec<Child>),
}

struct Child {
    chars: usize,
    node: Node,
}

impl Node {
    fn first(&self) -> &Run {
        match self {
            Node::Leaf(blocks) => &blocks[0].run,
            Node::Inner(children) => children[0].node.first(),
        }
    }

    /// The leaf that has this character, the block's place in it and the character's in the block.
    fn locate(&self, mut place: usize) -> (&[Block], usize, u32) {
        match self {
            Node::Leaf(blocks) => {
                let mut i = 0;
                while place >= blocks[i].run.len as usize {
                    place -= blocks[i].run.len as usize;
                    i += 1;
                }
                (blocks, i, place as u32)
            }
            Node::Inner(children) => {
                let mut i = 0;
                while place >= children[i].chars {
                    place -= children[i].chars;
                    i += 1;
                }
                children[i].node.locate(place)
            }
        }
    }

    /// The place of an identifier, or how many are below it.
    fn find(&self, id: &Run) -> Result<usize, usize> {
        match self {
            Node::Leaf(blocks) => {
                let i = blocks.partition_point(|block| block.run.compare(id) != Ordering::Greater);
                let Some(block) = i.checked_sub(1).map(|i| &blocks[i]) else { return Err(0) };
                let before: usize = blocks[..i - 1].iter().map(|block| block.run.len as usize).sum();
                let below = block.run.count_below(id);
                let found = below < block.run.len && block.run.offset + below as i32 == id.offset && block.run.has_base(&id.base);
                if found { Ok(before + below as usize) } else { Err(before + below as usize) }
            }
            Node::Inner(children) => {
                let i = children.partition_point(|child| child.node.first().compare(id) != Ordering::Greater).saturating_sub(1);
                let before: usize = children[..i].iter().map(|child| child.chars).sum();
                children[i].node.find(id).map(|place| before + place).map_err(|place| before + place)
            }
        }
    }

    /// Puts a block of at most `MOST_CHARS` characters before this character; the part that is split off if the node gets too large.
    fn insert(&mut self, mut place: usize, run: &Run, text: &str) -> Option<Child> {
        match self {
            Node::Leaf(blocks) => {
                insert_block(blocks, place, run, text);
                halved(blocks, |block| block.run.len as usize, Node::Leaf)
            }
            Node::Inner(children) => {
                let mut i = 0;
                while place > children[i].chars {
                    place -= children[i].chars;
                    i += 1;
                }
                children[i].chars += run.len as usize;
                if let Some(child) = children[i].node.insert(place, run, text) {
                    children[i].chars -= child.chars;
                    children.insert(i + 1, child);
                }
                halved(children, |child| child.chars, Node::Inner)
            }
        }
    }

    /// Appends a block of at most `MOST_CHARS` characters; a new node after it if this one is full.
    fn push(&mut self, run: &Run, text: &str) -> Option<Child> {
        match self {
            Node::Leaf(blocks) => {
                if blocks.last_mut().is_some_and(|last| last.join(run, text)) {
                    return None;
                }
                blocks.push(Block { run: run.clone(), text: text.to_owned() });
                overflow(blocks, |block| block.run.len as usize, Node::Leaf)
            }
            Node::Inner(children) => {
                let last = children.last_mut()?;
                match last.node.push(run, text) {
                    None => last.chars += run.len as usize,
                    Some(child) => children.push(child),
                }
                overflow(children, |child| child.chars, Node::Inner)
            }
        }
    }

    /// Removes these characters; the part that is split off if the node gets too large.
    fn remove(&mut self, from: usize, to: usize) -> Option<Child> {
        match self {
            Node::Leaf(blocks) => {
                remove_blocks(blocks, from, to);
                halved(blocks, |block| block.run.len as usize, Node::Leaf)
            }
            Node::Inner(children) => {
                let (mut i, mut before) = (0, 0);
                while i < children.len() && before < to {
                    let chars = children[i].chars;
                    let (first, last) = (from.max(before), to.min(before + chars));
                    if first < last {
                        children[i].chars -= last - first;
                        if let Some(child) = children[i].node.remove(first - before, last - before) {
                            children[i].chars -= child.chars;
                            children.insert(i + 1, child);
                        }
                    }
                    before += chars;
                    i += 1;
                }
                if children.iter().any(|child| child.chars == 0) {
                    children.retain(|child| child.chars > 0);
                }
                halved(children, |child| child.chars, Node::Inner)
            }
        }
    }

    fn visit<'a>(&'a self, visit: &mut impl FnMut(&'a Block)) {
        match self {
            Node::Leaf(blocks) => blocks.iter().for_each(visit),
            Node::Inner(children) => children.iter().for_each(|child| child.node.visit(visit)),
        }
    }
}

fn insert_block(blocks: &mut Vec<Block>, mut place: usize, run: &Run, text: &str) {
    let mut i = 0;
    while i < blocks.len() && place > blocks[i].run.len as usize {
        place -= blocks[i].run.len as usize;
        i += 1;
    }
    let whole = i == blocks.len() || place == 0 || place == blocks[i].run.len as usize;
    if !whole {
        let rest = blocks[i].split_off(place as u32);
        blocks.insert(i + 1, rest);
    }
    if place > 0 {
        if blocks[i].join(run, text) {
            return;
        }
        i += 1;
    }
    if i == blocks.len() || !blocks[i].join_front(run, text) {
        blocks.insert(i, Block { run: run.clone(), text: text.to_owned() });
    }
}

fn remove_blocks(blocks: &mut Vec<Block>, from: usize, to: usize) {
    let (mut i, mut before) = (0, 0);
    while before + blocks[i].run.len as usize <= from {
        before += blocks[i].run.len as usize;
        i += 1;
    }
    let (first, mut place, mut left) = (i, (from - before) as u32, to - from);
    while left > 0 {
        let len = blocks[i].run.len;
        let count = left.min((len - place) as usize) as u32;
        if place > 0 && place + count < len {
            let rest = blocks[i].split_off(place + count);
            blocks.insert(i + 1, rest);
        }
        blocks[i].remove(place, count);
        left -= count as usize;
        place = 0;
        i += 1;
    }
    if blocks[first..i].iter().any(|block| block.run.len == 0) {
        blocks.retain(|block| block.run.len > 0);
    }
    rejoin(blocks, first);
    rejoin(blocks, first + 1);
}

/// Joins a block with the one before it, if they touch and both have room in one.
fn rejoin(blocks: &mut Vec<Block>, i: usize) {
    if i > 0 && i < blocks.len() && blocks[i - 1].run.touches(&blocks[i].run) && blocks[i - 1].run.len + blocks[i].run.len <= MOST_CHARS {
        let next = blocks.remove(i);
        blocks[i - 1].join(&next.run, &next.text);
    }
}

/// Splits off the second half of a list that has got too long.
fn halved<T>(list: &mut Vec<T>, chars: impl Fn(&T) -> usize, node: impl Fn(Vec<T>) -> Node) -> Option<Child> {
    if list.len() <= MOST {
        return None;
    }
    let half = list.split_off(list.len() / 2);
    Some(Child { chars: half.iter().map(chars).sum(), node: node(half) })
}

/// The last of a list that has got too long, by itself.
fn overflow<T>(list: &mut Vec<T>, chars: impl Fn(&T) -> usize, node: impl Fn(Vec<T>) -> Node) -> Option<Child> {
    if list.len() <= MOST { None } else { list.pop().map(|last| Child { chars: chars(&last), node: node(vec![last]) }) }
}

/// A text of characters with identifiers.
pub struct Text {
    root: Node,
    chars: usize,
}

impl Text {
    pub fn new() -> Self {
        Self { root: Node::Leaf(Vec::new()), chars: 0 }
    }

    pub fn len(&self) -> usize {
        self.chars
    }

    /// The identifiers of the characters before this place and after it.
    pub fn around(&self, place: usize) -> (Option<Run>, Option<Run>) {
        let first = |place| (place < self.chars).then(|| self.root.locate(place)).map(|(blocks, i, inner)| blocks[i].run.part(inner, 1));
        let Some(before) = place.checked_sub(1) else { return (None, first(0)) };
        let (blocks, i, inner) = self.root.locate(before);
        let left = blocks[i].run.part(inner, 1);
        let right = if inner + 1 < blocks[i].run.len {
            Some(blocks[i].run.part(inner + 1, 1))
        } else if i + 1 < blocks.len() {
            Some(blocks[i + 1].run.part(0, 1))
        } else {
            first(place)
        };
        (Some(left), right)
    }

    /// The place of an identifier, or how many are below it.
    pub fn find(&self, id: &Run) -> Result<usize, usize> {
        self.root.find(id)
    }

    /// The run of characters of one block that begins at this place, if it isn't the end.
    pub fn run_at(&self, place: usize) -> Option<Run> {
        (place < self.chars).then(|| self.root.locate(place)).map(|(blocks, i, inner)| blocks[i].run.part(inner, blocks[i].run.len - inner))
    }

    /// Puts characters with these identifiers before this place.
    pub fn insert(&mut self, mut place: usize, run: &Run, mut text: &str) {
        let mut from = 0;
        while from < run.len {
            let count = MOST_CHARS.min(run.len - from);
            let (here, more) = text.split_at(if count == run.len - from { text.len() } else { byte_of(text, count) });
            self.insert_block(place, &run.part(from, count), here);
            text = more;
            place += count as usize;
            from += count;
        }
    }

    fn insert_block(&mut self, place: usize, run: &Run, text: &str) {
        let split = self.root.insert(place, run, text);
        self.grow(split, run.len as usize);
    }

    /// Counts more characters, and makes a new root if the old one was split.
    fn grow(&mut self, split: Option<Child>, more: usize) {
        self.chars += more;
        if let Some(child) = split {
            let node = std::mem::replace(&mut self.root, Node::Leaf(Vec::new()));
            self.root = Node::Inner(vec![Child { chars: self.chars - child.chars, node }, child]);
        }
    }

    pub fn remove(&mut self, place: usize, count: usize) {
        let split = self.root.remove(place, place + count);
        self.chars -= count;
        self.grow(split, 0);
        if self.chars == 0 {
            self.root = Node::Leaf(Vec::new());
        }
    }

    /// Appends characters at the end.
    pub fn push(&mut self, run: &Run, text: &str) {
        if run.len > MOST_CHARS {
            return self.insert(self.chars, run, text);
        }
        let split = self.root.push(run, text);
        self.grow(split, run.len as usize);
    }

    pub fn visit<'a>(&'a self, mut visit: impl FnMut(&'a Block)) {
        self.root.visit(&mut visit);
    }

    /// The identifiers of this many characters from this place on.
    pub fn runs(&self, mut place: usize, count: usize) -> Vec<Run> {
        let (mut runs, end) = (Vec::new(), place + count);
        while place < end {
            let (blocks, mut i, mut inner) = self.root.locate(place);
            while place < end && i < blocks.len() {
                let len = (blocks[i].run.len - inner).min((end - place) as u32);
                push_joined(&mut runs, blocks[i].run.part(inner, len));
                place += len as usize;
                inner = 0;
                i += 1;
            }
        }
        runs
    }
}

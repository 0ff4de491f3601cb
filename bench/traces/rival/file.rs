//! Files and messages: docs/FORMATS.md, "Messages" and "Files". The file is kept as `replica.rls`, as the program keeps it where it has
//! that name: a new one is written beside it, synced and renamed.

use std::fs::{self, File};
use std::io::{self, Write as _};

use crate::epochs::Epochs;
use crate::format::{Damaged, Read, Reader, Write};
use crate::ident::Run;
use crate::replica::{Log, Replica, Stem, Taken};
use crate::text::Text;
use crate::Failure;

const NAME: &str = "replica.rls";
const MOST_MESSAGE: usize = 1 << 26;
const MOST_FILE: usize = 1 << 28;

// ---- reading

pub fn load() -> Result<Replica, Failure> {
    let bytes = fs::read(NAME).map_err(|_| Failure(2, "no replica".into()))?;
    let (mut replica, starts, file_end) = read_file(&bytes).map_err(|Damaged(at)| Failure(3, format!("damaged at {at}")))?;
    replica.log = Log { file: bytes, new: Vec::new(), starts, file_end };
    Ok(replica)
}

fn read_file(bytes: &[u8]) -> Read<(Replica, Vec<u32>, usize)> {
    let mut reader = Reader::new(bytes, 0, 0);
    let head = reader.take(5)? == b"RLSF\x04";
    reader.check(head, 5)?;
    let (group, members, me) = (reader.u64()?, reader.u32()?, reader.u32()?);
    reader.check(me < members && members <= 64, 4)?;
    reader.members = members as usize;
    let mut replica = Replica::new(group, me, members as usize);
    replica.rows[me as usize] = reader.vector()?;
    for member in (0..members).filter(|&member| member != me) {
        replica.rows[member as usize] = reader.vector()?;
    }
    for _ in 0..reader.u32()? {
        let member = reader.u32()?;
        reader.check(member < members, 4)?;
        replica.left[member as usize] = true;
    }
    replica.stems = (0..members).map(|_| read_stems(&mut reader)).collect::<Read<_>>()?;
    replica.epochs = read_epochs(&mut reader)?;
    replica.text = read_text(&mut reader)?;
    let mut starts = Vec::new();
    for _ in 0..reader.u32()? {
        starts.push(reader.at as u32);
        reader.skip_op()?;
    }
    let file_end = reader.at;
    for _ in 0..reader.u32()? {
        let op = reader.op()?;
        replica.waiting.insert((op.author, op.seq), op.bytes.to_vec());
    }
    if reader.at < bytes.len() { Err(Damaged(reader.at)) } else { Ok((replica, starts, file_end)) }
}

fn read_stems(reader: &mut Reader) -> Read<Vec<Stem>> {
    let count = reader.u32()?;
    (0..count).map(|_| Ok(Stem { s0: reader.u32()?, low: reader.u32()? as i32, next: reader.u32()? as i32 })).collect()
}

fn read_epochs(reader: &mut Reader) -> Read<Epochs> {
    let count = reader.u32()?;
    let mut epochs = Epochs::new(reader.name()?);
    for _ in 1..count {
        let begin = reader.at;
        let (name, parent, former) = (reader.name()?, reader.u32()? as usize, reader.runs()?);
        match name {
            Some((author, seq)) if parent < epochs.list.len() && !former.is_empty() => epochs.add(author, seq, parent, former),
            _ => return Err(Damaged(begin)),
        }
    }
    Ok(epochs)
}

fn read_text(reader: &mut Reader) -> Read<Text> {
    let mut text = Text::new();
    for _ in 0..reader.u32()? {
        let run = reader.run()?;
        let begin = reader.at;
        let chars = reader.text()?;
        if chars.chars().count() != run.len as usize {
            return Err(Damaged(begin));
        }
        text.push(&run, chars);
    }
    Ok(text)
}

pub fn read_message(replica: &mut Replica, bytes: &[u8]) -> Result<Taken, Failure> {
    take_message(replica, &mut Reader::new(bytes, 0, replica.members())).map_err(|Damaged(at)| Failure(4, format!("malformed at {at}")))
}

fn take_message(replica: &mut Replica, reader: &mut Reader) -> Read<Taken> {
    let head = reader.take(5)? == b"RLSM\x03";
    reader.check(head, 5)?;
    let (group, members, from) = (reader.u64()?, reader.u32()?, reader.u32()?);
    reader.check(group == replica.group && members as usize == replica.members() && from < members, 4)?;
    let (counts, count) = (reader.vector()?, reader.u32()?);
    let taken = replica.take(reader, count)?;
    replica.acknowledge(from, &counts);
    Ok(taken)
}

// ---- writing

pub fn store(replica: &Replica) -> Result<(), Failure> {
    let stable = replica.stable();
    let mut front = Vec::new();
    put_front(replica, &stable, &mut front);
    let all = stable.iter().all(|&count| count == 0);
    let ops = if all { replica.log.starts.len() } else { replica.unstable(&stable).count() };
    front.u32(ops as u32);
    let mut back = Vec::new();
    back.u32(replica.waiting.len() as u32);
    replica.waiting.values().for_each(|op| back.extend_from_slice(op));
    let new = format!("{NAME}.new");
    let mut file = File::create(&new)?;
    file.write_all(&front)?;
    let written = put_unstable(replica, &stable, ops, &mut file)?;
    file.write_all(&back)?;
    if front.len() + written + back.len() > MOST_FILE {
        return Err(Failure(11, "too large".into()));
    }
    file.sync_all()?;
    fs::rename(&new, NAME)?;
    Ok(File::open(".")?.sync_all()?)
}

/// Writes the unstable operations as the log has them: whole, if it has no others.
fn put_unstable(replica: &Replica, stable: &[u32], ops: usize, file: &mut File) -> io::Result<usize> {
    let log = &replica.log;
    if ops < log.starts.len() {
        let bytes = replica.unstable(stable).fold(Vec::new(), |mut bytes, op| {
            bytes.extend_from_slice(op);
            bytes
        });
        file.write_all(&bytes)?;
        return Ok(bytes.len());
    }
    let first = log.starts.first().map_or(log.file_end, |&start| (start as usize).min(log.file_end));
    file.write_all(&log.file[first..log.file_end])?;
    file.write_all(&log.new)?;
    Ok(log.file_end - first + log.new.len())
}

fn put_front(replica: &Replica, stable: &[u32], out: &mut Vec<u8>) {
    out.extend_from_slice(b"RLSF\x04");
    out.u64(replica.group);
    out.u32(replica.members() as u32);
    out.u32(replica.me);
    out.vector(replica.counts());
    (0..replica.members()).filter(|&it| it != replica.me as usize).for_each(|it| out.vector(&replica.rows[it]));
    let left: Vec<u32> = (0..replica.members()).filter(|&it| replica.left[it]).map(|it| it as u32).collect();
    out.u32(left.len() as u32);
    out.vector(&left);
    for stems in &replica.stems {
        out.u32(stems.len() as u32);
        stems.iter().for_each(|stem| out.vector(&[stem.s0, stem.low as u32, stem.next as u32]));
    }
    put_epochs(replica, &replica.retained(stable), out);
    put_text(&replica.text, out);
}

fn put_epochs(replica: &Replica, retained: &[usize], out: &mut Vec<u8>) {
    let list = &replica.epochs.list;
    out.u32(retained.len() as u32);
    out.name(list[retained[0]].name);
    for &it in &retained[1..] {
        let parent = retained.iter().position(|&other| other == list[it].parent).unwrap_or(0);
        out.name(list[it].name);
        out.u32(parent as u32);
        out.runs(list[it].renaming.as_ref().map_or(&[][..], |renaming| &renaming.former));
    }
}

/// The text in maximal runs: blocks that touch are one. The numbers of a run that goes on are written again.
fn put_text(text: &Text, out: &mut Vec<u8>) {
    let begin = out.len();
    out.u32(0);
    let (mut count, mut numbers, mut last) = (0u32, 0, None::<Run>);
    text.visit(|block| match &mut last {
        Some(last) if last.touches(&block.run) => {
            last.len += block.run.len;
            out.extend_from_slice(block.text.as_bytes());
            let bytes = (out.len() - numbers - 8) as u32;
            out[numbers..numbers + 4].copy_from_slice(&last.len.to_be_bytes());
            out[numbers + 4..numbers + 8].copy_from_slice(&bytes.to_be_bytes());
        }
        _ => {
            out.ident(&block.run);
            numbers = out.len();
            out.u32(block.run.len);
            out.text(&block.text);
            last = Some(block.run.clone());
            count += 1;
        }
    });
    out[begin..begin + 4].copy_from_slice(&count.to_be_bytes());
}

/// Writes the message for this member: what it isn't known to have, as far as a message may go.
pub fn write_message(replica: &Replica, to: usize, out: &mut impl io::Write) -> io::Result<()> {
    let members = replica.members();
    let mut known = replica.stable();
    known.iter_mut().zip(&replica.rows[to]).for_each(|(known, &count)| *known = count.max(*known));
    let mut ops = Vec::new();
    let mut count = 0u32;
    for op in replica.unstable(&known) {
        if 25 + 4 * members + ops.len() + op.len() > MOST_MESSAGE {
            break;
        }
        ops.extend_from_slice(op);
        count += 1;
    }
    let mut head = Vec::new();
    head.extend_from_slice(b"RLSM\x03");
    head.u64(replica.group);
    head.u32(members as u32);
    head.u32(replica.me);
    head.vector(replica.counts());
    head.u32(count);
    out.write_all(&head)?;
    out.write_all(&ops)
}

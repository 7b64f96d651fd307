//! A plain program that answers the recordings of bench/replay as `lnfs replay` does, to compare times with.
//!
//! It takes the guests of a policy file, reads a recording whole, keeps every event, and writes the frames of the
//! replies: to an EXCHANGE_ID or a CREATE_SESSION that stands alone its result; to a SEQUENCE with what stands behind it
//! theirs, which it keeps in the slot for when the request comes again; to any other COMPOUND the refusal of its first
//! operation. Behind a SEQUENCE it knows RECLAIM_COMPLETE, PUTROOTFH, LOOKUP, GETATTR and READDIR, of the attributes type,
//! fileid and sec_label, and of the policy the first directories in the root with labels as CALIPSO bodies; and of
//! directories and files that are named by PUTFH, CREATE, OPEN and LOOKUP of what was made there, GETFH, READ and WRITE. It answers
//! nothing else, checks no more than it must to find its way, and proves nothing. bench/plain_serve.rs serves links by it.

use std::collections::BTreeMap;
use std::io::{BufWriter, Read, Write};

/// A record with what the journal keeps beside it: its class, its link, and the moment in seconds and nanoseconds.
pub struct Event {
    pub class: u32,
    pub link: u32,
    pub secs: u64,
    pub nanos: u32,
    pub message: Vec<u8>,
}

struct Client {
    number: u32,
    verifier: [u8; 8],
}

/// The last sequence of a slot, and the arguments that came under it with their result.
#[derive(Clone, Default)]
struct Slot {
    sequence: u32,
    kept: Option<(Vec<u8>, Vec<u8>)>,
}

struct Reader<'a>(&'a [u8]);

impl<'a> Reader<'a> {
    fn take(&mut self, n: usize) -> Option<&'a [u8]> {
        if n > self.0.len() {
            return None;
        }
        let (front, rest) = self.0.split_at(n);
        self.0 = rest;
        Some(front)
    }

    fn word(&mut self) -> Option<u32> {
        Some(u32::from_be_bytes(self.take(4)?.try_into().ok()?))
    }

    fn long(&mut self) -> Option<u64> {
        Some(u64::from_be_bytes(self.take(8)?.try_into().ok()?))
    }

    fn opaque(&mut self) -> Option<&'a [u8]> {
        let n = self.word()? as usize;
        let value = self.take(n)?;
        self.take(n.wrapping_neg() % 4)?;
        Some(value)
    }
}

/// The guest lines of a policy: class, user or none, level.
fn guests(policy: &str) -> Vec<(u32, Option<u32>, u32)> {
    let lines = policy.lines().filter_map(|line| line.strip_prefix("guest "));
    lines.map(|line| {
        let words: Vec<&str> = line.split(' ').collect();
        (words[0].parse().unwrap(), words[1].parse().ok(), words[2].parse().unwrap())
    }).collect()
}

/// A directory: its number in level 0 and the body of its label.
struct Dir {
    number: u32,
    label: Vec<u8>,
}

/// A file handle: the home of a node and its number there.
type Handle = [u8; 12];

fn handle(home: u32, number: u32) -> Handle {
    let mut bytes = [0; 12];
    bytes[..4].copy_from_slice(&home.to_be_bytes());
    bytes[8..].copy_from_slice(&number.to_be_bytes());
    bytes
}

/// What was made in a directory: its change number, and what the names name.
struct Made {
    change: u64,
    names: BTreeMap<Vec<u8>, Handle>,
}

/// Makes a name in a directory for the next node of a level, and appends how the directory's change number changed.
fn make(made: &mut BTreeMap<Handle, Made>, dir: Handle, name: Vec<u8>, node: Handle, out: &mut Vec<u8>) {
    let dir = made.entry(dir).or_insert(Made { change: 1, names: BTreeMap::new() });
    out.extend(1u32.to_be_bytes());
    out.extend(dir.change.to_be_bytes());
    dir.change += 1;
    out.extend(dir.change.to_be_bytes());
    dir.names.insert(name, node);
}

/// The body of a label: its DOI, the number of words, the sensitivity, and the words of its compartments.
fn body(doi: u32, sens: u8, comps: &str) -> Vec<u8> {
    let mut bits = [0u8; 32];
    for run in comps.split(',').filter(|run| *run != "-") {
        let mut ends = run.split('.').map(|c| c[1..].parse::<usize>().unwrap());
        let first = ends.next().unwrap();
        for c in first..=ends.next().unwrap_or(first) {
            bits[c / 8] |= 0x80 >> (c % 8);
        }
    }
    let words = bits.iter().rposition(|b| *b != 0).map_or(0, |at| at / 4 + 1);
    let mut body = doi.to_be_bytes().to_vec();
    body.extend([words as u8, sens]);
    body.extend(&bits[..4 * words]);
    body
}

/// The labels of the levels of a policy, and its directories in the root by their names: the root itself has none.
fn dirs(policy: &str) -> BTreeMap<Vec<u8>, Dir> {
    let labels: Vec<Vec<u8>> = policy.lines().filter_map(|line| line.strip_prefix("level ")).map(|line| {
        let words: Vec<&str> = line.split(' ').collect();
        body(words[1].parse().unwrap(), words[2].parse().unwrap(), words[3])
    }).collect();
    let mut dirs = BTreeMap::from([(Vec::new(), Dir { number: 1, label: labels[0].clone() })]);
    for line in policy.lines().filter_map(|line| line.strip_prefix("dir /")) {
        let (name, level) = line.split_once(' ').unwrap();
        let number = dirs.len() as u32 + 1;
        dirs.insert(name.as_bytes().to_vec(), Dir { number, label: labels[level.parse::<usize>().unwrap()].clone() });
    }
    dirs
}

/// Appends the attributes that are asked of a directory, of those that are known, with their bitmap.
fn attrs_to(out: &mut Vec<u8>, asked: &[u32], dir: &Dir) {
    let mut mask = [0u32; 3];
    for (word, known) in mask.iter_mut().zip([0x0010_0002, 0, 0x0001_0000]) {
        *word = known;
    }
    for (at, word) in mask.iter_mut().enumerate() {
        *word &= asked.get(at).copied().unwrap_or(0);
    }
    let words = mask.iter().rposition(|word| *word != 0).map_or(0, |at| at + 1);
    out.extend((words as u32).to_be_bytes());
    for word in &mask[..words] {
        out.extend(word.to_be_bytes());
    }
    let begin = out.len();
    out.extend([0; 4]);
    if mask[0] & 2 != 0 {
        out.extend(2u32.to_be_bytes());
    }
    if mask[0] & 0x0010_0000 != 0 {
        out.extend(u64::from(dir.number).to_be_bytes());
    }
    if mask[2] != 0 {
        out.extend(101u32.to_be_bytes());
        out.extend(1u32.to_be_bytes());
        opaque_to(out, &dir.label);
    }
    let length = (out.len() - begin - 4) as u32;
    out[begin..begin + 4].copy_from_slice(&length.to_be_bytes());
}

fn opaque_to(out: &mut Vec<u8>, bytes: &[u8]) {
    out.extend((bytes.len() as u32).to_be_bytes());
    out.extend(bytes);
    out.resize(out.len().next_multiple_of(4), 0);
}

#[derive(Default)]
pub struct Server {
    guests: Vec<(u32, Option<u32>, u32)>,
    clients: BTreeMap<(u32, Vec<u8>), Client>,
    last: BTreeMap<u32, u32>,
    sessions: BTreeMap<(u32, u64), Vec<Slot>>,
    last_session: BTreeMap<u32, u64>,
    /// The first directories by their names, the root by none; and the root's names by their cookies.
    dirs: BTreeMap<Vec<u8>, Dir>,
    cookies: BTreeMap<u64, Vec<u8>>,
    made: BTreeMap<Handle, Made>,
    files: BTreeMap<Handle, Vec<u8>>,
    last_open: BTreeMap<u32, u64>,
    last_node: BTreeMap<u32, u32>,
    pub journal: Vec<Event>,
}

impl Server {
    /// The server of a policy before all events.
    pub fn new(policy: &str) -> Server {
        let dirs = dirs(policy);
        let mut names: Vec<(u32, Vec<u8>)> = dirs.iter().map(|(name, dir)| (dir.number, name.clone())).collect();
        names.sort();
        let cookies = names.into_iter().skip(1).enumerate().map(|(at, (_, name))| (at as u64 + 3, name)).collect();
        Server { guests: guests(policy), dirs, cookies, ..Server::default() }
    }

    /// The reply to a record, with its fragment head.
    pub fn reply(&mut self, class: u32, message: &[u8], out: &mut Vec<u8>) -> Option<()> {
        let mut call = Reader(message);
        let xid = call.word()?;
        call.take(16)?;
        if call.word()? != 1 || call.word()? != 1 {
            return None;
        }
        let mut body = Reader(call.opaque()?);
        body.word()?;
        body.opaque()?;
        let uid = body.word()?;
        call.word()?;
        call.opaque()?;
        let arguments = call.0;
        let tag = call.opaque()?;
        call.word()?;
        let count = call.word()?;
        let number = call.word()?;
        let level = self.guests.iter().find(|g| g.0 == class && g.1.is_none_or(|it| it == uid))?.2;
        out.clear();
        out.extend([0; 4]);
        for word in [xid, 1, 0, 0, 0, 0] {
            out.extend(word.to_be_bytes());
        }
        if number == 42 && count == 1 {
            let verifier: [u8; 8] = call.take(8)?.try_into().ok()?;
            let owner = call.opaque()?;
            let client = self.exchange(level, owner, verifier);
            out.extend(0u32.to_be_bytes());
            opaque_to(out, tag);
            for word in [1, 42, 0, level, client, 1, 0x10000, 0, 0, 0] {
                out.extend(u32::to_be_bytes(word));
            }
            opaque_to(out, b"labelled-nfs");
            opaque_to(out, b"labelled-nfs");
            out.extend(0u32.to_be_bytes());
        } else if number == 43 && count == 1 {
            call.take(8)?;
            let sequence = call.word()?;
            call.word()?;
            let channels: Vec<u32> = (0..14).map_while(|_| call.word()).collect();
            let session = self.create(level, *channels.get(5)? as usize);
            out.extend(0u32.to_be_bytes());
            opaque_to(out, tag);
            for word in [1, 43, 0, level, 0, session as u32, 0, sequence, 0].iter().chain(&channels) {
                out.extend(u32::to_be_bytes(*word));
            }
        } else if number == 53 {
            self.sequence(tag, arguments, count, &mut call, out)?;
        } else {
            out.extend(10071u32.to_be_bytes());
            opaque_to(out, tag);
            for word in [1, number, 10071] {
                out.extend(u32::to_be_bytes(word));
            }
        }
        let head = 0x8000_0000 | (out.len() - 4) as u32;
        out[..4].copy_from_slice(&head.to_be_bytes());
        Some(())
    }

    /// The number of a new session of so many slots.
    fn create(&mut self, level: u32, slots: usize) -> u64 {
        let last = self.last_session.entry(level).or_insert(0);
        *last += 1;
        self.sessions.insert((level, *last), vec![Slot::default(); slots]);
        *last
    }

    /// Appends the result of a COMPOUND behind a SEQUENCE, the first time or again.
    fn sequence(&mut self, tag: &[u8], arguments: &[u8], count: u32, call: &mut Reader<'_>, out: &mut Vec<u8>) -> Option<()> {
        let id = call.take(16)?;
        let (sequence, at) = (call.word()?, call.word()?);
        call.take(8)?;
        let level = u32::from_be_bytes(id[..4].try_into().ok()?);
        let slots = self.sessions.get_mut(&(level, u64::from_be_bytes(id[4..12].try_into().ok()?)))?;
        let highest = slots.len() as u32 - 1;
        let slot = slots.get_mut(at as usize)?;
        if let Some((kept, result)) = &slot.kept {
            if slot.sequence == sequence {
                out.extend(if kept == arguments { result } else { return None });
                return Some(());
            }
        }
        if sequence != slot.sequence + 1 {
            return None;
        }
        let begin = out.len();
        out.extend(0u32.to_be_bytes());
        opaque_to(out, tag);
        out.extend(count.to_be_bytes());
        out.extend([0, 0, 0, 53, 0, 0, 0, 0]);
        out.extend(id);
        for word in [sequence, at, highest, highest, 0] {
            out.extend(u32::to_be_bytes(word));
        }
        let mut current: Option<&Dir> = None;
        let mut at_handle: Option<Handle> = None;
        for _ in 1..count {
            let number = call.word()?;
            out.extend(number.to_be_bytes());
            out.extend(0u32.to_be_bytes());
            match number {
                58 => {
                    call.word()?;
                }
                24 => (current, at_handle) = (self.dirs.get([].as_slice()), None),
                22 => at_handle = Some(call.opaque()?.try_into().ok()?),
                10 => opaque_to(out, &at_handle?),
                15 => match at_handle {
                    Some(at) => at_handle = Some(*self.made.get(&at)?.names.get(call.opaque()?)?),
                    None => current = Some(self.dirs.get(call.opaque()?)?),
                },
                6 => {
                    if call.word()? != 2 {
                        return None;
                    }
                    let name = call.opaque()?.to_vec();
                    call.take(8)?;
                    let first = if level == 0 { self.dirs.len() as u32 } else { 0 };
                    let last = self.last_node.entry(level).or_insert(first);
                    *last += 1;
                    make(&mut self.made, at_handle?, name, handle(level, *last), out);
                    out.extend(0u32.to_be_bytes());
                    at_handle = Some(handle(level, *last));
                }
                18 => {
                    call.take(20)?;
                    call.opaque()?;
                    if call.word()? != 1 || call.take(16)? != [0; 16] {
                        return None;
                    }
                    let name = call.opaque()?.to_vec();
                    let first = if level == 0 { self.dirs.len() as u32 } else { 0 };
                    let last = self.last_node.entry(level).or_insert(first);
                    *last += 1;
                    let state = self.last_open.entry(level).or_insert(0);
                    *state += 1;
                    out.extend(1u32.to_be_bytes());
                    out.extend(level.to_be_bytes());
                    out.extend(state.to_be_bytes());
                    make(&mut self.made, at_handle?, name, handle(level, *last), out);
                    out.extend([0; 12]);
                    self.files.insert(handle(level, *last), Vec::new());
                    at_handle = Some(handle(level, *last));
                }
                25 => {
                    call.take(16)?;
                    let offset = call.long()? as usize;
                    let count = (call.word()? as usize).min(32768);
                    let file = self.files.get(&at_handle?)?;
                    let from = offset.min(file.len());
                    let end = (from + count).min(file.len());
                    out.extend(u32::from(end == file.len()).to_be_bytes());
                    opaque_to(out, &file[from..end]);
                }
                38 => {
                    call.take(16)?;
                    let offset = call.long()? as usize;
                    call.word()?;
                    let content = call.opaque()?;
                    let file = self.files.get_mut(&at_handle?)?;
                    let end = offset + content.len();
                    if file.len() < end {
                        file.resize(end, 0);
                    }
                    file[offset..end].copy_from_slice(content);
                    out.extend((content.len() as u32).to_be_bytes());
                    out.extend(2u32.to_be_bytes());
                    out.extend([0; 8]);
                }
                9 => {
                    let asked: Vec<u32> = (0..call.word()?).map_while(|_| call.word()).collect();
                    attrs_to(out, &asked, current?);
                }
                26 => {
                    let cookie = call.long()?;
                    call.take(12)?;
                    let size = call.word()? as usize;
                    let asked: Vec<u32> = (0..call.word()?).map_while(|_| call.word()).collect();
                    let start = out.len();
                    out.extend([0; 8]);
                    let mut eof = 1u32;
                    for (cookie, name) in self.cookies.range(cookie + 1..) {
                        let mark = out.len();
                        out.extend(1u32.to_be_bytes());
                        out.extend(cookie.to_be_bytes());
                        opaque_to(out, name);
                        attrs_to(out, &asked, self.dirs.get(name)?);
                        if out.len() - start + 8 > size {
                            out.truncate(mark);
                            eof = 0;
                            break;
                        }
                    }
                    out.extend(0u32.to_be_bytes());
                    out.extend(eof.to_be_bytes());
                }
                _ => return None,
            }
        }
        *slot = Slot { sequence, kept: Some((arguments.to_vec(), out[begin..].to_vec())) };
        Some(())
    }

    /// The number of the pending record that stands afterwards.
    fn exchange(&mut self, level: u32, owner: &[u8], verifier: [u8; 8]) -> u32 {
        let last = self.last.entry(level).or_insert(0);
        *last += 1;
        let client = Client { number: *last, verifier };
        let old = self.clients.insert((level, owner.to_vec()), client);
        debug_assert!(old.is_none_or(|it| it.number < *last && it.verifier.len() == 8));
        *last
    }
}

fn main() -> std::io::Result<()> {
    let args: Vec<String> = std::env::args().collect();
    let mut server = Server::new(&std::fs::read_to_string(&args[1])?);
    let mut recording = Vec::new();
    std::fs::File::open(&args[2])?.read_to_end(&mut recording)?;
    let mut events = Reader(&recording);
    let mut out = BufWriter::with_capacity(65536, std::io::stdout().lock());
    let mut frame = Vec::new();
    events.take(8);
    while let Some(class) = events.word() {
        let link = events.word().unwrap();
        let (secs, nanos) = (events.long().unwrap(), events.word().unwrap());
        let length = events.word().unwrap() as usize;
        let message = events.take(length).unwrap().to_vec();
        if server.reply(class, &message, &mut frame).is_some() {
            out.write_all(&frame)?;
        }
        server.journal.push(Event { class, link, secs, nanos, message });
    }
    let sum: u64 = server.journal.iter().map(|it| u64::from(it.class ^ it.link ^ it.nanos) + it.secs + it.message.len() as u64).sum();
    out.flush()?;
    eprintln!("{} events, {sum}", server.journal.len());
    Ok(())
}

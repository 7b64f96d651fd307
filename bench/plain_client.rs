//! A plain client that does for the scripts of bench/client what `lnfs client` does, to compare times with.
//!
//! usage: plain_client POLICY LEVEL SCRIPT
//!
//! The script is one of a guest, with lines `make`, `write`, `read` and `list` (docs/COMMANDS.md, 'Talking as a client').
//! The client sends the same requests, judges by the label in each reply whether it may show what it asked for, and shows
//! the same texts, each before its next request. It knows labels of the first format of POLICY alone, as CALIPSO bodies,
//! and panics where a reply isn't what it expects.
//!
//! Requests are laid out from RFC 5531, RFC 4506, RFC 8881, RFC 7862 and docs/PROTOCOL.md.

use std::fmt::Write as _;
use std::io::{self, Read, Write};
use std::net::TcpStream;

const FIRST_PORT: u16 = 20490;
const OWNER: &[u8] = b"client";
const CHANNEL: [u32; 7] = [0, 65536, 65536, 65536, 32, 16, 0];
const LABEL_ALONE: [u32; 4] = [3, 0, 0, 0x0001_0000]; // a bitmap: sec_label
const ERROR_AND_LABEL: [u32; 4] = [3, 0x0000_0800, 0, 0x0001_0000]; // rdattr_error too

// ---- labels

/// A level: its DOI, its sensitivity, and the bits of its compartments.
struct Level {
    doi: u32,
    sens: u8,
    bits: [u8; 32],
}

impl Level {
    fn of(line: &str) -> Level {
        let words: Vec<&str> = line.split(' ').collect();
        let mut bits = [0; 32];
        for run in words[4].split(',').filter(|run| *run != "-") {
            let mut ends = run.split('.').map(|c| c[1..].parse::<usize>().unwrap());
            let first = ends.next().unwrap();
            for c in first..=ends.next().unwrap_or(first) {
                bits[c / 8] |= 0x80 >> (c % 8);
            }
        }
        Level { doi: words[2].parse().unwrap(), sens: words[3].parse().unwrap(), bits }
    }

    fn dominates(&self, other: &Level) -> bool {
        let mut comps = self.bits.iter().zip(&other.bits);
        self.doi == other.doi && self.sens >= other.sens && comps.all(|(own, its)| own & its == *its)
    }

    fn body(&self) -> Vec<u8> {
        let words = self.bits.iter().rposition(|b| *b != 0).map_or(0, |at| at / 4 + 1);
        let mut body = self.doi.to_be_bytes().to_vec();
        body.extend([words as u8, self.sens]);
        body.extend(&self.bits[..4 * words]);
        body
    }
}

/// The levels of a policy, their bodies, and how a label of its first format begins.
struct Labels {
    levels: Vec<Level>,
    bodies: Vec<Vec<u8>>,
    format: [u32; 2],
}

impl Labels {
    fn of(policy: &str) -> Labels {
        let levels: Vec<Level> = policy.lines().filter(|line| line.starts_with("level ")).map(Level::of).collect();
        let bodies = levels.iter().map(Level::body).collect();
        let first = policy.lines().find(|line| line.starts_with("format ")).unwrap();
        let words: Vec<&str> = first.split(' ').collect();
        Labels { levels, bodies, format: [words[1].parse().unwrap(), words[2].parse().unwrap()] }
    }

    /// The level that the result of a GETATTR tells, and what is behind it.
    fn told<'a>(&self, mut reader: Reader<'a>) -> (usize, Reader<'a>) {
        reader.expect(&[9, 0]);
        reader.expect(&LABEL_ALONE);
        let mut label = Reader(reader.opaque());
        (self.level(&mut label).expect("a label of no level"), reader)
    }

    /// What is behind such a result, where a client of this level may show it.
    fn judged<'a>(&self, own: usize, reader: Reader<'a>) -> Reader<'a> {
        let (level, reader) = self.told(reader);
        assert!(self.levels[own].dominates(&self.levels[level]), "the label isn't dominated");
        reader
    }

    /// The level of a label.
    fn level(&self, reader: &mut Reader) -> Option<usize> {
        let format = [reader.word(), reader.word()];
        let body = reader.opaque();
        if format == self.format { self.bodies.iter().position(|it| it == body) } else { None }
    }
}

// ---- items

fn words(out: &mut Vec<u8>, values: &[u32]) {
    for value in values {
        out.extend(value.to_be_bytes());
    }
}

fn opaque(out: &mut Vec<u8>, bytes: &[u8]) {
    words(out, &[bytes.len() as u32]);
    out.extend(bytes);
    out.resize(out.len().next_multiple_of(4), 0);
}

struct Reader<'a>(&'a [u8]);

impl<'a> Reader<'a> {
    fn take(&mut self, n: usize) -> &'a [u8] {
        let (front, rest) = self.0.split_at(n);
        self.0 = rest;
        front
    }

    fn word(&mut self) -> u32 {
        u32::from_be_bytes(self.take(4).try_into().unwrap())
    }

    fn expect(&mut self, due: &[u32]) {
        for word in due {
            assert_eq!(self.word(), *word, "a reply is otherwise");
        }
    }

    fn opaque(&mut self) -> &'a [u8] {
        let n = self.word() as usize;
        let value = self.take(n);
        self.take(n.wrapping_neg() % 4);
        value
    }
}

// ---- the client

struct Client {
    stream: TcpStream,
    labels: Labels,
    level: usize,
    uid: u32,
    asked: u32,
    client: [u32; 2],
    session: [u32; 4],
    sequence: u32,
    frame: Vec<u8>,
    reply: Vec<u8>,
    text: String,
}

/// The names of a path.
fn names_of(path: &str) -> Vec<&str> {
    path.split('/').filter(|name| !name.is_empty()).collect()
}

/// Appends the walk to a node; how many operations that is.
fn walk(out: &mut Vec<u8>, names: &[&str]) -> u32 {
    words(out, &[24]); // PUTROOTFH
    for name in names {
        words(out, &[15]); // LOOKUP
        opaque(out, name.as_bytes());
    }
    1 + names.len() as u32
}

impl Client {
    /// Begins a COMPOUND with so many operations.
    fn begin(&mut self, operations: u32) {
        self.asked += 1;
        self.frame.clear();
        words(&mut self.frame, &[0, self.asked, 0, 2, 100003, 4, 1, 1, 28, 0]);
        opaque(&mut self.frame, OWNER);
        words(&mut self.frame, &[self.uid, 0, 0, 0, 0, 0, 2, operations]);
    }

    /// The same behind a SEQUENCE on the first slot.
    fn begin_in_session(&mut self, operations: u32) {
        self.begin(operations + 1);
        words(&mut self.frame, &[53]);
        words(&mut self.frame, &self.session);
        words(&mut self.frame, &[self.sequence, 0, 0, 1]);
        self.sequence += 1;
    }

    /// Sends what was begun, waits for its reply, and gives it behind the head of a COMPOUND that succeeded.
    fn ask(&mut self) -> Reader<'_> {
        let head = 0x8000_0000 | (self.frame.len() - 4) as u32;
        self.frame[..4].copy_from_slice(&head.to_be_bytes());
        self.stream.write_all(&self.frame).unwrap();
        let mut head = [0; 4];
        self.stream.read_exact(&mut head).unwrap();
        self.reply.resize((u32::from_be_bytes(head) & 0x7fff_ffff) as usize, 0);
        self.stream.read_exact(&mut self.reply).unwrap();
        let mut reader = Reader(&self.reply);
        reader.expect(&[self.asked, 1, 0, 0, 0, 0, 0, 0]);
        reader.word();
        reader
    }

    /// The same behind the results of SEQUENCE and of a walk by so many names.
    fn ask_in_session(&mut self, names: usize) -> Reader<'_> {
        let mut reader = self.ask();
        reader.expect(&[53, 0]);
        reader.take(36);
        reader.expect(&[24, 0]);
        (0..names).for_each(|_| reader.expect(&[15, 0]));
        reader
    }

    fn mount(&mut self) {
        self.begin(1);
        words(&mut self.frame, &[42, 0, 0]); // EXCHANGE_ID, with a verifier of zeros
        opaque(&mut self.frame, OWNER);
        words(&mut self.frame, &[0, 0, 0]);
        let mut reader = self.ask();
        reader.expect(&[42, 0]);
        let client = [reader.word(), reader.word()];
        let number = reader.word();
        self.client = client;
        self.begin(1);
        words(&mut self.frame, &[43, client[0], client[1], number, 0]);
        words(&mut self.frame, &CHANNEL);
        words(&mut self.frame, &CHANNEL);
        words(&mut self.frame, &[0, 0]);
        let mut reader = self.ask();
        reader.expect(&[43, 0]);
        self.session = std::array::from_fn(|_| reader.word());
        self.sequence = 1;
        self.begin_in_session(1);
        words(&mut self.frame, &[58, 0]); // RECLAIM_COMPLETE
        self.ask();
        self.text.push_str("mounted\n");
    }

    /// Asks for the label of what a change is to be made of.
    fn ask_label(&mut self, names: &[&str]) {
        self.begin_in_session(2 + names.len() as u32);
        walk(&mut self.frame, names);
        words(&mut self.frame, &[9]);
        words(&mut self.frame, &LABEL_ALONE);
        let level = self.level;
        let (labels, reply) = self.ask_beside(names.len());
        let (told, _) = labels.told(reply);
        assert_eq!(told, level, "what is to be changed has another level");
    }

    /// Begins the change, behind a VERIFY of that label; so many operations follow.
    fn begin_change(&mut self, names: &[&str], operations: u32) {
        self.begin_in_session(2 + names.len() as u32 + operations);
        walk(&mut self.frame, names);
        words(&mut self.frame, &[37]);
        words(&mut self.frame, &LABEL_ALONE);
        let mut label = Vec::new();
        words(&mut label, &self.labels.format);
        opaque(&mut label, &self.labels.bodies[self.level]);
        opaque(&mut self.frame, &label);
    }

    fn make(&mut self, path: &str) {
        let names = names_of(path);
        let (name, dir) = names.split_last().unwrap();
        self.ask_label(dir);
        self.begin_change(dir, 1);
        words(&mut self.frame, &[18, 0, 2, 0, self.client[0], self.client[1]]); // OPEN for writing, nothing denied
        opaque(&mut self.frame, OWNER);
        words(&mut self.frame, &[1, 1, 0, 0, 0]); // made as a new file, without attributes, by a name
        opaque(&mut self.frame, name.as_bytes());
        let mut reader = self.ask_in_session(dir.len());
        reader.expect(&[37, 0, 18, 0]);
        let state: [u32; 4] = std::array::from_fn(|_| reader.word());
        self.begin_in_session(2 + names.len() as u32);
        walk(&mut self.frame, &names);
        words(&mut self.frame, &[4, 0]); // CLOSE
        words(&mut self.frame, &state);
        self.ask();
        self.text.push_str("made\n");
    }

    fn write(&mut self, path: &str, offset: u32, hex: &str) {
        let names = names_of(path);
        let data: Vec<u8> = (0..hex.len()).step_by(2).map(|at| u8::from_str_radix(&hex[at..at + 2], 16).unwrap()).collect();
        self.ask_label(&names);
        self.begin_change(&names, 1);
        words(&mut self.frame, &[38, 0, 0, 0, 0, 0, offset, 2]); // WRITE, anonymous, to stand
        opaque(&mut self.frame, &data);
        let mut reader = self.ask_in_session(names.len());
        reader.expect(&[37, 0, 38, 0]);
        let count = reader.word();
        writeln!(self.text, "wrote {count}").unwrap();
    }

    /// Begins to ask for the label of a node and for what it holds.
    fn begin_reading(&mut self, names: &[&str]) {
        self.begin_in_session(3 + names.len() as u32);
        walk(&mut self.frame, names);
        words(&mut self.frame, &[9]);
        words(&mut self.frame, &LABEL_ALONE);
    }

    fn read(&mut self, path: &str, offset: u32, count: u32) {
        let names = names_of(path);
        self.begin_reading(&names);
        words(&mut self.frame, &[25, 0, 0, 0, 0, 0, offset, count]);
        let mut text = std::mem::take(&mut self.text);
        let level = self.level;
        let (labels, reply) = self.ask_beside(names.len());
        let mut reader = labels.judged(level, reply);
        reader.expect(&[25, 0]);
        reader.word();
        text.push_str("data ");
        for byte in reader.opaque() {
            for digit in [byte >> 4, byte & 15] {
                text.push(b"0123456789abcdef"[digit as usize] as char);
            }
        }
        text.push('\n');
        self.text = text;
    }

    /// The same as `ask_in_session`, with the labels beside it.
    fn ask_beside(&mut self, names: usize) -> (&Labels, Reader<'_>) {
        self.ask_in_session(names);
        let mut reader = Reader(&self.reply);
        reader.take(36 + 44 + 8 + 8 * names);
        (&self.labels, reader)
    }

    fn list(&mut self, path: &str) {
        let names = names_of(path);
        let mut text = std::mem::take(&mut self.text);
        let mut cookie = [0, 0];
        loop {
            self.begin_reading(&names);
            words(&mut self.frame, &[26, cookie[0], cookie[1], 0, 0, 32768, 32768]);
            words(&mut self.frame, &ERROR_AND_LABEL);
            let level = self.level;
            let (labels, reply) = self.ask_beside(names.len());
            let mut reader = labels.judged(level, reply);
            reader.expect(&[26, 0, 0, 0]);
            while reader.word() == 1 {
                cookie = [reader.word(), reader.word()];
                let name: String = reader.opaque().iter().map(|b| if (32..127).contains(b) { *b as char } else { '?' }).collect();
                reader.expect(&ERROR_AND_LABEL);
                let mut attributes = Reader(reader.opaque());
                attributes.word();
                let level = labels.level(&mut attributes).map_or("?".to_string(), |it| it.to_string());
                writeln!(text, "entry {name} {level}").unwrap();
            }
            if reader.word() == 1 {
                break;
            }
        }
        text.push_str("end\n");
        self.text = text;
    }

    fn leave(&mut self) {
        self.begin(1);
        words(&mut self.frame, &[44]); // DESTROY_SESSION
        words(&mut self.frame, &self.session);
        self.ask();
        self.begin(1);
        words(&mut self.frame, &[57]); // DESTROY_CLIENTID
        words(&mut self.frame, &self.client);
        self.ask();
        self.text.push_str("left\n");
    }

    /// Shows a text.
    fn show(&mut self) -> io::Result<()> {
        let mut out = io::stdout().lock();
        out.write_all(self.text.as_bytes())?;
        self.text.clear();
        out.flush()
    }

    fn act(&mut self, line: &str) {
        let cells: Vec<&str> = line.split(' ').collect();
        match cells[0] {
            "make" => self.make(cells[1]),
            "write" => self.write(cells[1], cells[2].parse().unwrap(), cells[3]),
            "read" => self.read(cells[1], cells[2].parse().unwrap(), cells[3].parse().unwrap()),
            "list" => self.list(cells[1]),
            other => panic!("no action {other}"),
        }
    }
}

fn main() -> io::Result<()> {
    let args: Vec<String> = std::env::args().collect();
    let labels = Labels::of(&std::fs::read_to_string(&args[1])?);
    let script = std::fs::read_to_string(&args[3])?;
    let mut lines = script.lines();
    let link: Vec<&str> = lines.next().unwrap().split(' ').collect();
    let stream = TcpStream::connect(("127.0.0.1", FIRST_PORT + link[1].parse::<u16>().unwrap()))?;
    stream.set_nodelay(true)?;
    let mut client = Client {
        stream,
        labels,
        level: args[2].parse().unwrap(),
        uid: link[3].parse().unwrap(),
        asked: 0,
        client: [0; 2],
        session: [0; 4],
        sequence: 0,
        frame: Vec::new(),
        reply: Vec::new(),
        text: String::new(),
    };
    client.mount();
    client.show()?;
    for line in lines {
        client.act(line);
        client.show()?;
    }
    client.leave();
    client.show()
}

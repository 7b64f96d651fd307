//! A client that loads a server on the loopback over links; bench/serve starts it, to time the server.
//!
//! usage: load KIND LIMIT MILLIS PID FOLDER CALLER ..
//!
//! A caller is a guest, CLASS:UID, or a parent that asserts a label, CLASS:PARENT:SECRET:LFS:PI:LABEL with the secret and the
//! label in hex (docs/PROTOCOL.md, 'Calls by RPCSEC_GSS'): it makes a context, and signs all that it asks in it.
//!
//! Each caller has a link, a thread and one request outstanding; the links are dialled in the order of the callers. A link
//! makes a client and a session. Where KIND is `read` or `write` it makes a file in the directory of its level and fills it
//! with 128 KiB, and then reads or writes 32 KiB of it a request; where KIND is `small` a request is SEQUENCE, PUTROOTFH and
//! GETATTR of type, fileid and sec_label. It goes on until it has made LIMIT requests in all, or MILLIS are over since its
//! first reply; then it is closed. So links that a server serves one after the other wait for each other.
//!
//! Of each reply the status and the lengths are looked at as it comes, and its signatures once all links are done; where one
//! isn't that of a success, or isn't signed well, it panics. What link i received is written to FOLDER/i. Prints four numbers:
//! of the requests; the microseconds of the monotonic clock at the first reply of all and at the last; and the microseconds
//! that the process PID was on the processors between these two.
//!
//! Requests are laid out from RFC 5531, RFC 4506, RFC 8881, RFC 7862 and docs/PROTOCOL.md.

mod sha256;

use sha256::signature;
use std::io::{Read, Write};
use std::net::{Shutdown, TcpStream};
use std::sync::atomic::{AtomicUsize, Ordering};
use std::sync::OnceLock;
use std::time::{Duration, Instant};

const FIRST_PORT: u16 = 20490;
const PIECE: u32 = 32768; // the bytes of a READ or a WRITE
const PIECES: u32 = 4; // so many make a file
const SEQUENCE_WORDS: usize = 11; // of its result
const HEAD_WORDS: usize = 2; // of each result: its number and its status

#[derive(Clone, Copy, PartialEq)]
enum Kind {
    Small,
    Read,
    Write,
}

// ---- requests

fn words(out: &mut Vec<u8>, values: &[u32]) {
    for value in values {
        out.extend(value.to_be_bytes());
    }
}

fn opaque(out: &mut Vec<u8>, bytes: &[u8]) {
    words(out, &[bytes.len() as u32]);
    out.extend(bytes);
    out.resize(out.len().next_multiple_of(4), 0);
}

/// A parent that asserts a label: its secret, the arguments of its CREATE, and the handle that its calls have, which is the
/// parent's own until there is a context.
struct Signer {
    secret: [u8; 32],
    asserted: Vec<u8>,
    handle: Vec<u8>,
}

/// Who calls.
enum Caller {
    Guest(u32),
    Parent(Signer),
}

fn of_hex(text: &str) -> Vec<u8> {
    (0..text.len()).step_by(2).map(|at| u8::from_str_radix(&text[at..at + 2], 16).unwrap()).collect()
}

impl Caller {
    /// The class and the caller that a word of the command line says.
    fn of(word: &str) -> (u16, Caller) {
        let cells: Vec<&str> = word.split(':').collect();
        let number = |at: usize| cells[at].parse::<u32>().unwrap();
        let class = number(0) as u16;
        if cells.len() == 2 {
            return (class, Caller::Guest(number(1)));
        }
        let mut asserted = Vec::new();
        words(&mut asserted, &[0, 0, 1, 0, number(3), number(4)]); // no principal, no channel, one assertion, a label
        opaque(&mut asserted, &of_hex(cells[5]));
        let handle = number(1).to_be_bytes().to_vec();
        (class, Caller::Parent(Signer { secret: of_hex(cells[2]).try_into().unwrap(), asserted, handle }))
    }
}

impl Signer {
    fn is_asserting(&self) -> bool {
        self.handle.len() == 4
    }

    /// The header of a call, which the verifier signs: a CREATE with the handle of a parent, and else a DATA.
    fn header(&self, xid: u32) -> Vec<u8> {
        let (procedure, gss_procedure) = if self.is_asserting() { (0, 5) } else { (1, 0) };
        let mut out = Vec::with_capacity(128);
        words(&mut out, &[xid, 0, 2, 100003, 4, procedure, 6, 20 + self.handle.len() as u32]);
        words(&mut out, &[3, gss_procedure, xid, 2]); // the version, and the service that signs
        opaque(&mut out, &self.handle);
        out
    }

    /// The signature of the header of the reply to a call.
    fn vouched(&self, xid: u32) -> [u8; 32] {
        let mut header = self.header(xid);
        header[7] = 1;
        signature(&self.secret, &header)
    }

    /// Whether a reply, without its fragment head, is signed as it should be.
    fn has_signed(&self, xid: u32, reply: &[u8]) -> bool {
        let (head, body) = reply.split_at(56); // three words, the verifier's two and its signature, and accept_stat
        let due = u32::from_be_bytes(body[..4].try_into().unwrap()) as usize;
        let databody = &body[4..4 + due];
        head[20..52] == self.vouched(xid) && body[body.len() - 32..] == signature(&self.secret, databody)
    }
}

/// A frame that is being laid out, and where the databody begins that is to be signed.
struct Frame {
    bytes: Vec<u8>,
    databody: usize,
}

impl Caller {
    /// The frame of a call; the arguments are to follow.
    fn begin(&self, xid: u32) -> Frame {
        let mut bytes = Vec::with_capacity(PIECE as usize + 512);
        words(&mut bytes, &[0]);
        match self {
            Caller::Guest(uid) => {
                words(&mut bytes, &[xid, 0, 2, 100003, 4, 1]);
                words(&mut bytes, &[1, 28, 0]); // AUTH_SYS: a stamp, a name, a user, a group and no groups
                opaque(&mut bytes, b"bench");
                words(&mut bytes, &[*uid, 0, 0]);
                words(&mut bytes, &[0, 0]); // no verifier
            }
            Caller::Parent(signer) => {
                let header = signer.header(xid);
                bytes.extend(&header);
                words(&mut bytes, &[6]);
                opaque(&mut bytes, &signature(&signer.secret, &header));
                words(&mut bytes, &[0, xid]); // the databody: its length, and its sequence number
            }
        }
        let databody = bytes.len() - 4;
        Frame { bytes, databody }
    }

    /// The frame of a call of a COMPOUND with so many operations; these are to follow.
    fn compound(&self, xid: u32, operations: u32) -> Frame {
        let mut frame = self.begin(xid);
        words(&mut frame.bytes, &[0, 2, operations]); // an empty tag and the minor version
        frame
    }

    /// Ends a frame: signs it, where it is to be, and lays out its head: one fragment, the last of its record.
    fn close(&self, frame: Frame) -> Vec<u8> {
        let Frame { mut bytes, databody } = frame;
        if let Caller::Parent(signer) = self {
            let length = (bytes.len() - databody) as u32; // all that is asked here fills whole words
            bytes[databody - 4..databody].copy_from_slice(&length.to_be_bytes());
            let sum = signature(&signer.secret, &bytes[databody..]);
            opaque(&mut bytes, &sum);
        }
        let head = 0x8000_0000 | (bytes.len() - 4) as u32;
        bytes[..4].copy_from_slice(&head.to_be_bytes());
        bytes
    }

    /// Where the results begin in a reply, behind its fragment head, whose words these are: it is accepted with success, and where
    /// it is signed it has two signatures of 32 bytes.
    fn results_in(&self, xid: u32, head: &[u32], length: usize) -> usize {
        match self {
            Caller::Guest(_) => {
                assert_eq!(head[..6], [xid, 1, 0, 0, 0, 0], "a request was refused");
                6
            }
            Caller::Parent(_) => {
                assert_eq!(head[..5], [xid, 1, 0, 6, 32], "a request was refused");
                assert_eq!(head[13], 0, "a request was refused");
                assert_eq!(length, 4 * 15 + head[14] as usize + 36, "a reply has other lengths");
                assert_eq!(head[15], xid, "a reply has another sequence number");
                16
            }
        }
    }
}

fn put_fh(out: &mut Vec<u8>, handle: [u32; 3]) {
    words(out, &[22, 12]);
    words(out, &handle);
}

// ---- when the load begins and ends

extern "C" {
    fn clock_gettime(clock: i32, time: *mut [i64; 2]) -> i32;
}

/// A moment, and how long the process that is timed had been on the processors, with all its threads.
#[derive(Clone, Copy)]
struct Mark {
    at: Duration,
    busy: Duration,
}

fn told_by(clock: i32) -> Duration {
    let mut time = [0; 2];
    let status = unsafe { clock_gettime(clock, &mut time) };
    assert_eq!(status, 0, "the server isn't there");
    Duration::new(time[0] as u64, time[1] as u32)
}

impl Mark {
    /// Now: the monotonic clock is number 1, and Linux makes the number of a process's clock from that of the process.
    fn of(pid: i32) -> Mark {
        Mark { at: told_by(1), busy: told_by(!pid << 3 | 2) }
    }
}

/// What the links share: the process that is timed, the first reply, how many links are left, and the last reply.
struct Run {
    pid: i32,
    first: OnceLock<Mark>,
    left: AtomicUsize,
    last: OnceLock<Mark>,
}

// ---- links

struct Link {
    stream: TcpStream,
    caller: Caller,
    asked: u32,
    level: u32,
    session: [u32; 4],
    sequence: u32,
    file: [u32; 3],
    state: [u32; 4],
    buffer: Vec<u8>,
    got: Vec<u8>,
}

/// A connection to the server, once it listens.
fn dial(class: u16) -> TcpStream {
    let began = Instant::now();
    loop {
        match TcpStream::connect(("127.0.0.1", FIRST_PORT + class)) {
            Ok(stream) => return stream,
            Err(_) if began.elapsed() < Duration::from_secs(10) => std::thread::sleep(Duration::from_millis(5)),
            Err(error) => panic!("no server on port {}: {error}", FIRST_PORT + class),
        }
    }
}

impl Link {
    fn new(word: &str) -> Link {
        let (class, caller) = Caller::of(word);
        let stream = dial(class);
        stream.set_nodelay(true).unwrap();
        Link {
            stream,
            caller,
            asked: 0,
            level: 0,
            session: [0; 4],
            sequence: 0,
            file: [0; 3],
            state: [0; 4],
            buffer: vec![0; 65536],
            got: Vec::new(),
        }
    }

    /// Sends a frame and waits for its reply; the first words of the results.
    fn ask(&mut self, frame: Frame) -> Vec<u32> {
        let bytes = self.caller.close(frame);
        self.stream.write_all(&bytes).unwrap();
        let begin = self.got.len();
        let mut due = 4;
        while self.got.len() - begin < due {
            let count = self.stream.read(&mut self.buffer).unwrap();
            assert!(count > 0, "the server closed a link");
            self.got.extend_from_slice(&self.buffer[..count]);
            if let Some(head) = self.got[begin..].first_chunk::<4>() {
                due = 4 + (u32::from_be_bytes(*head) & 0x7fff_ffff) as usize;
            }
        }
        let reply = &self.got[begin + 4..];
        let mut head: Vec<u32> = reply.chunks_exact(4).take(80).map(|it| u32::from_be_bytes(it.try_into().unwrap())).collect();
        assert_eq!(reply.len(), due - 4, "more than a reply");
        head.split_off(self.caller.results_in(self.asked, &head, due - 4))
    }

    /// The same of a COMPOUND: the words behind the count of its results.
    fn ask_compound(&mut self, frame: Frame, operations: u32) -> Vec<u32> {
        let mut results = self.ask(frame);
        assert_eq!(results[..3], [0, 0, operations], "a request was refused");
        results.split_off(3)
    }

    /// Makes the context of a parent.
    fn assert_label(&mut self) {
        self.asked += 1;
        let Caller::Parent(signer) = &self.caller else { return };
        let mut frame = self.caller.begin(self.asked);
        frame.bytes.extend(&signer.asserted);
        let results = self.ask(frame);
        assert_eq!(results[0], 16, "a handle of a context");
        let Caller::Parent(signer) = &mut self.caller else { return };
        signer.handle = results[1..5].iter().flat_map(|it| it.to_be_bytes()).collect();
    }

    /// Asks for one operation outside of a session.
    fn alone(&mut self, operation: &[u8]) -> Vec<u32> {
        self.asked += 1;
        let mut frame = self.caller.compound(self.asked, 1);
        frame.bytes.extend(operation);
        self.ask_compound(frame, 1)
    }

    /// Asks for operations behind a SEQUENCE on the first slot.
    fn in_session(&mut self, count: u32, operations: impl FnOnce(&mut Vec<u8>)) -> Vec<u32> {
        self.asked += 1;
        self.sequence += 1;
        let mut frame = self.caller.compound(self.asked, 1 + count);
        words(&mut frame.bytes, &[53]);
        words(&mut frame.bytes, &self.session);
        words(&mut frame.bytes, &[self.sequence, 0, 0, 1]);
        operations(&mut frame.bytes);
        self.ask_compound(frame, 1 + count)
    }

    fn exchange_id(&mut self, owner: &str) -> [u32; 2] {
        let mut operation = Vec::new();
        words(&mut operation, &[42, 0, 0]);
        opaque(&mut operation, owner.as_bytes());
        words(&mut operation, &[0, 0, 0]); // no flags, no state protection, no implementation
        let results = self.alone(&operation);
        results[2..4].try_into().unwrap()
    }

    fn create_session(&mut self, client: [u32; 2]) {
        let mut operation = Vec::new();
        let channel = [0, 65536, 65536, 65536, 8, 16, 0];
        words(&mut operation, &[43, client[0], client[1], 1, 0]);
        words(&mut operation, &channel);
        words(&mut operation, &channel);
        words(&mut operation, &[0, 0]); // a program that isn't called back
        let results = self.alone(&operation);
        self.session = results[2..6].try_into().unwrap();
    }

    /// Makes a file of a name, open for reading and writing, in the directory of the link's level: the root, or the one that
    /// the policy's `dir` line of that number names.
    fn open(&mut self, name: &str) {
        let level = self.level;
        let results = self.in_session(3, |out| {
            put_fh(out, [0, 0, 1 + level]);
            words(out, &[18, 0, 3, 0, 0, 0]); // OPEN: both ways, nothing denied
            opaque(out, b"owner");
            words(out, &[1, 0, 0, 0, 0]); // made without attributes, by a name
            opaque(out, name.as_bytes());
            words(out, &[10]); // GETFH
        });
        let opened = &results[SEQUENCE_WORDS + 2 * HEAD_WORDS..];
        self.state = opened[..4].try_into().unwrap();
        self.file = opened[15..18].try_into().unwrap();
    }

    fn getattr(&mut self) {
        self.in_session(2, |out| {
            words(out, &[24]); // PUTROOTFH
            words(out, &[9, 3, 0x0010_0002, 0, 0x0001_0000]); // GETATTR of type, fileid and sec_label
        });
    }

    fn read(&mut self, piece: u32) {
        let (file, state) = (self.file, self.state);
        self.in_session(2, |out| {
            put_fh(out, file);
            words(out, &[25]);
            words(out, &state);
            words(out, &[0, piece % PIECES * PIECE, PIECE]);
        });
    }

    fn write(&mut self, piece: u32) {
        let (file, state) = (self.file, self.state);
        self.in_session(2, |out| {
            put_fh(out, file);
            words(out, &[38]);
            words(out, &state);
            words(out, &[0, piece % PIECES * PIECE, 2, PIECE]);
            out.resize(out.len() + PIECE as usize, piece as u8);
        });
    }

    /// All requests of the link that has this number.
    fn load(mut self, number: usize, kind: Kind, limit: u32, time: Duration, run: &Run) -> Link {
        if let Caller::Parent(_) = &self.caller {
            self.assert_label();
            run.first.get_or_init(|| Mark::of(run.pid));
        }
        let client = self.exchange_id(&format!("link{number}"));
        run.first.get_or_init(|| Mark::of(run.pid));
        let end = Instant::now() + time;
        self.level = client[0];
        self.create_session(client);
        if kind != Kind::Small {
            self.open(&format!("file{number}"));
            (0..PIECES).for_each(|piece| self.write(piece));
        }
        while self.asked < limit && Instant::now() < end {
            match kind {
                Kind::Small => self.getattr(),
                Kind::Read => self.read(self.asked),
                Kind::Write => self.write(self.asked),
            }
        }
        if run.left.fetch_sub(1, Ordering::SeqCst) == 1 {
            run.last.get_or_init(|| Mark::of(run.pid));
        }
        self.stream.shutdown(Shutdown::Write).unwrap();
        self
    }

    /// Looks at the signatures of all replies that came.
    fn check_signatures(&self) {
        let Caller::Parent(signer) = &self.caller else { return };
        let asserting = Signer { secret: signer.secret, asserted: Vec::new(), handle: signer.handle[..4].to_vec() };
        let mut left = &self.got[..];
        for xid in 1..=self.asked {
            let (head, behind) = left.split_at(4);
            let (reply, behind) = behind.split_at((u32::from_be_bytes(head.try_into().unwrap()) & 0x7fff_ffff) as usize);
            let by = if xid == 1 { &asserting } else { signer };
            assert!(by.has_signed(xid, reply), "reply {xid} isn't signed well");
            left = behind;
        }
    }
}

fn main() -> std::io::Result<()> {
    let args: Vec<String> = std::env::args().collect();
    let kind = match args[1].as_str() {
        "small" => Kind::Small,
        "read" => Kind::Read,
        "write" => Kind::Write,
        other => panic!("no kind {other}"),
    };
    let limit = args[2].parse().unwrap();
    let time = Duration::from_millis(args[3].parse().unwrap());
    let (folder, callers) = (&args[5], &args[6..]);
    let run = Run { pid: args[4].parse().unwrap(), first: OnceLock::new(), left: AtomicUsize::new(callers.len()), last: OnceLock::new() };
    let links: Vec<Link> = callers.iter().map(|it| Link::new(it)).collect();
    let done: Vec<Link> = std::thread::scope(|scope| {
        let run = &run;
        let threads: Vec<_> = links.into_iter().enumerate().map(|(number, link)| {
            scope.spawn(move || link.load(number, kind, limit, time, run))
        }).collect();
        threads.into_iter().map(|it| it.join().unwrap()).collect()
    });
    for (number, link) in done.iter().enumerate() {
        link.check_signatures();
        std::fs::write(format!("{folder}/{number}"), &link.got)?;
    }
    let (first, last) = (run.first.get().unwrap(), run.last.get().unwrap());
    let requests: u32 = done.iter().map(|it| it.asked).sum();
    println!("{requests} {} {} {}", first.at.as_micros(), last.at.as_micros(), (last.busy - first.busy).as_micros());
    Ok(())
}

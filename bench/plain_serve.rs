//! A plain server that does for the load of bench/load.rs what `lnfs serve` does, to compare times with.
//!
//! usage: plain_serve POLICY LINKS WORKERS
//!
//! It listens on port 20490 of the loopback and those behind it, one for each class of LINKS, and accepts one link for each
//! entry of LINKS. Link i is served whole by thread i mod WORKERS, each thread its links in rising order, over one server
//! (bench/plain.rs) under one mutex; a reply is one call of write. Then it writes the recording of all events, and a line for
//! each link. It answers what the plain server knows, and panics where a link fails.

#[allow(dead_code)]
mod plain;

use plain::{Event, Server};
use std::collections::BTreeMap;
use std::io::{self, BufRead, BufReader, BufWriter, Write};
use std::net::{TcpListener, TcpStream};
use std::sync::Mutex;
use std::time::SystemTime;

/// A link, its number, and the class that it came by.
struct Link {
    number: u32,
    class: u32,
    stream: TcpStream,
}

/// The next record (RFC 5531 section 11); none where the input ends before it.
fn next_record(input: &mut impl BufRead) -> io::Result<Option<Vec<u8>>> {
    if input.fill_buf()?.is_empty() {
        return Ok(None);
    }
    let mut record = Vec::new();
    loop {
        let mut head = [0; 4];
        input.read_exact(&mut head)?;
        let head = u32::from_be_bytes(head);
        let at = record.len();
        record.resize(at + (head & 0x7fff_ffff) as usize, 0);
        input.read_exact(&mut record[at..])?;
        if head >> 31 == 1 {
            return Ok(Some(record));
        }
    }
}

/// Serves a link until its peer closes it; the number of its records.
fn serve(server: &Mutex<Server>, link: Link) -> io::Result<u32> {
    let Link { number, class, mut stream } = link;
    let mut input = BufReader::with_capacity(65536, stream.try_clone()?);
    let mut frame = Vec::new();
    let mut records = 0;
    while let Some(message) = next_record(&mut input)? {
        let moment = SystemTime::now().duration_since(SystemTime::UNIX_EPOCH).unwrap();
        {
            let mut server = server.lock().unwrap();
            server.reply(class, &message, &mut frame).expect("a request that isn't known");
            server.journal.push(Event { class, link: number, secs: moment.as_secs(), nanos: moment.subsec_nanos(), message });
        }
        records += 1;
        stream.write_all(&frame)?;
    }
    Ok(records)
}

/// Accepts one link for each class, in their order.
fn accept(classes: &[u32]) -> io::Result<Vec<Link>> {
    let mut listeners = BTreeMap::new();
    for class in classes {
        if !listeners.contains_key(class) {
            listeners.insert(*class, TcpListener::bind(("127.0.0.1", 20490 + *class as u16))?);
        }
    }
    let links = (0..).zip(classes).map(|(number, class)| {
        let (stream, _) = listeners[class].accept()?;
        stream.set_nodelay(true)?;
        Ok(Link { number, class: *class, stream })
    });
    links.collect()
}

/// Deals links to so many threads in turn and serves them; the numbers of records, in the order of the links.
fn serve_all(server: &Mutex<Server>, links: Vec<Link>, workers: usize) -> BTreeMap<u32, u32> {
    let mut hands: Vec<Vec<Link>> = (0..workers).map(|_| Vec::new()).collect();
    for link in links {
        hands[link.number as usize % workers].push(link);
    }
    std::thread::scope(|scope| {
        let threads: Vec<_> = hands.into_iter().map(|hand| {
            scope.spawn(move || -> Vec<(u32, u32)> { hand.into_iter().map(|link| (link.number, serve(server, link).unwrap())).collect() })
        }).collect();
        threads.into_iter().flat_map(|it| it.join().unwrap()).collect()
    })
}

/// Writes the recording of a journal to standard output.
fn record(journal: &[Event]) -> io::Result<()> {
    let mut out = BufWriter::with_capacity(65536, io::stdout().lock());
    out.write_all(b"LNFSTRC1")?;
    for event in journal {
        out.write_all(&event.class.to_be_bytes())?;
        out.write_all(&event.link.to_be_bytes())?;
        out.write_all(&event.secs.to_be_bytes())?;
        out.write_all(&event.nanos.to_be_bytes())?;
        out.write_all(&(event.message.len() as u32).to_be_bytes())?;
        out.write_all(&event.message)?;
    }
    out.flush()
}

fn main() -> io::Result<()> {
    let args: Vec<String> = std::env::args().collect();
    let server = Mutex::new(Server::new(&std::fs::read_to_string(&args[1])?));
    let classes: Vec<u32> = args[2].split(',').map(|it| it.parse().unwrap()).collect();
    let records = serve_all(&server, accept(&classes)?, args[3].parse().unwrap());
    record(&server.into_inner().unwrap().journal)?;
    for (link, records) in records {
        eprintln!("link {link} Closed {records}");
    }
    Ok(())
}

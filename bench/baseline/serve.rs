//! The same job as `wgr serve DB HOST:PORT --count N`, as plain Rust over the C library SQLite, with no
//! proofs: what `bench/serve` compares against.

mod key;
// `register` uses more of these.
#[allow(dead_code)]
mod network;
mod office;
mod pages;
mod prefix;
mod rows;
mod sha256;
mod sqlite;

use office::Office;
use sqlite::Connection;
use std::io::{self, Read, Write};
use std::net::{Shutdown, TcpListener, TcpStream};
use std::time::{SystemTime, UNIX_EPOCH};

/// How many bytes are read at once.
const CHUNK: usize = 16384;

fn read_more(link: &mut TcpStream, message: &mut Vec<u8>) -> io::Result<()> {
    let mut chunk = [0; CHUNK];
    let count = link.read(&mut chunk)?;
    if count == 0 {
        return Err(io::ErrorKind::UnexpectedEof.into());
    }
    message.extend_from_slice(&chunk[..count]);
    Ok(())
}

fn now() -> i64 {
    SystemTime::now().duration_since(UNIX_EPOCH).expect("a moment after 1970").as_secs() as i64
}

/// Reads a request, answers it, and reads to the end, so that no byte which comes late resets the link.
fn serve_one(office: &mut Office, link: &mut TcpStream) -> io::Result<()> {
    let mut message = Vec::new();
    while !office::is_whole(&message) {
        read_more(link, &mut message)?;
    }
    link.write_all(&office.answer(now(), &message))?;
    link.shutdown(Shutdown::Write)?;
    io::copy(link, &mut io::sink()).map(|_| ())
}

fn serve(path: &str, place: &str, count: u32) -> io::Result<()> {
    let mut office = Office::new(Connection::open(path));
    let listener = TcpListener::bind(place)?;
    println!("listening");
    for _ in 0..count {
        let (mut link, _) = listener.accept()?;
        if serve_one(&mut office, &mut link).is_err() {
            eprintln!("wgr: connection");
        }
    }
    Ok(())
}

fn main() -> io::Result<()> {
    let words: Vec<String> = std::env::args().skip(1).collect();
    let words: Vec<&str> = words.iter().map(String::as_str).collect();
    let ["serve", path, place, "--count", count] = words[..] else {
        panic!("usage: serve DB HOST:PORT --count N");
    };
    serve(path, place, count.parse().expect("a number of connections"))
}

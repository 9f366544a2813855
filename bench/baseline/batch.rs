//! The same job as `wgr batch DB --now N FILE..`, as plain Rust over the C library SQLite, with no proofs:
//! what `bench/batch` and `bench/register` compare against.

mod key;
// `register` uses more of these.
#[allow(dead_code)]
mod network;
// `serve` asks besides whether a request is whole.
#[allow(dead_code)]
mod office;
mod pages;
mod prefix;
mod rows;
mod sha256;
mod sqlite;

use office::Office;
use sqlite::Connection;
use std::fs;
use std::io::{self, Write};

fn main() -> io::Result<()> {
    let words: Vec<String> = std::env::args().skip(1).collect();
    let words: Vec<&str> = words.iter().map(String::as_str).collect();
    let ["batch", path, "--now", now, files @ ..] = &words[..] else {
        panic!("usage: batch DB --now N FILE..");
    };
    let now = now.parse().expect("a moment");
    let requests = files.iter().map(fs::read).collect::<io::Result<Vec<_>>>()?;
    let mut office = Office::new(Connection::open(path));
    let replies: Vec<_> = requests.iter().map(|request| office.answer(now, request)).collect();
    let mut out = io::stdout().lock();
    replies.iter().try_for_each(|reply| out.write_all(reply))
}

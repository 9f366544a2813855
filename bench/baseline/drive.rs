//! Asks a server on the loopback one request after the other, and prints the milliseconds of all.
//!
//! `drive PORT REQUESTS REPLIES`: REQUESTS has each request behind a line with its length; REPLIES gets the
//! replies in the same form. Each request has its own connection, whose write side is shut once it is sent.

use std::fs;
use std::io::{self, Read, Write};
use std::net::{Ipv4Addr, Shutdown, TcpStream};
use std::time::Instant;

fn requests_of(mut bytes: &[u8]) -> Vec<&[u8]> {
    let mut requests = Vec::new();
    while let Some(end) = bytes.iter().position(|byte| *byte == b'\n') {
        let length = str::from_utf8(&bytes[..end]).ok().and_then(|text| text.parse::<usize>().ok());
        let (request, rest) = bytes[end + 1..].split_at(length.expect("a length"));
        requests.push(request);
        bytes = rest;
    }
    requests
}

fn ask(port: u16, request: &[u8]) -> io::Result<Vec<u8>> {
    let mut link = TcpStream::connect((Ipv4Addr::LOCALHOST, port))?;
    link.write_all(request)?;
    link.shutdown(Shutdown::Write)?;
    let mut reply = Vec::new();
    link.read_to_end(&mut reply)?;
    Ok(reply)
}

fn main() -> io::Result<()> {
    let words: Vec<String> = std::env::args().skip(1).collect();
    let [port, requests, replies] = words.as_slice() else {
        panic!("usage: drive PORT REQUESTS REPLIES");
    };
    let port = port.parse().expect("a port");
    let text = fs::read(requests)?;
    let requests = requests_of(&text);
    let mut answers = Vec::with_capacity(requests.len());
    let start = Instant::now();
    for request in requests {
        answers.push(ask(port, request)?);
    }
    println!("{:.3}", start.elapsed().as_secs_f64() * 1000.0);
    let mut out = Vec::new();
    for answer in answers {
        writeln!(out, "{}", answer.len())?;
        out.extend_from_slice(&answer);
    }
    fs::write(replies, out)
}

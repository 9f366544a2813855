//! The same job as `wgr plan POOL`, as plain Rust with no proofs: what `bench/run` compares against.

// `serve` uses more of these.
#[allow(dead_code)]
mod key;
#[allow(dead_code)]
mod prefix;

use key::key_of;
use prefix::{Family, Prefix};
use std::collections::hash_map::Entry;
use std::collections::HashMap;
use std::io::{self, Read, Write};
use std::process::ExitCode;

const CAPACITY: usize = 4096;
const SERVER_KEY: [u8; 32] = [0xFF; 32];

/// The addresses that are still to be given: `left` of them in order, from `next` on.
struct Pool {
    family: Family,
    next: u128,
    left: u128,
}

enum PoolError {
    BadField,
    BadPool,
}

enum Refusal {
    BadKey,
    ServerKey,
    KeyHeld(u32),
    CapacityReached,
    PoolFull,
}

fn pool_of(text: &str) -> Result<Pool, PoolError> {
    let Prefix { family, number, length } = Prefix::read(text).ok_or(PoolError::BadField)?;
    let is_length = match family {
        Family::V4 => (8..=30).contains(&length),
        Family::V6 => (48..=126).contains(&length),
    };
    if !is_length {
        return Err(PoolError::BadPool);
    }
    let size = 1u128 << (family.width() - length);
    if number % size != 0 {
        return Err(PoolError::BadPool);
    }
    // The network's and the server's address are never given, nor is the last one of IPv4.
    let left = match family {
        Family::V4 => size - 3,
        Family::V6 => size - 2,
    };
    Ok(Pool { family, next: number + 2, left })
}

fn add(
    line: &[u8],
    pool: &mut Pool,
    held: &mut HashMap<[u8; 32], u32>,
    out: &mut Vec<u8>,
) -> Result<(), Refusal> {
    let key = key_of(line).ok_or(Refusal::BadKey)?;
    if key == SERVER_KEY {
        return Err(Refusal::ServerKey);
    }
    let count = held.len();
    let place = match held.entry(key) {
        Entry::Occupied(entry) => return Err(Refusal::KeyHeld(*entry.get())),
        Entry::Vacant(place) => place,
    };
    if count == CAPACITY {
        return Err(Refusal::CapacityReached);
    }
    if pool.left == 0 {
        return Err(Refusal::PoolFull);
    }
    let number = count as u32 + 1;
    place.insert(number);
    // Writing to a vector does not fail.
    let _ = write!(out, "{number}\t");
    out.extend_from_slice(line);
    out.push(b'\t');
    let _ = Prefix::full(pool.family, pool.next).write(out);
    out.push(b'\n');
    pool.next = pool.next.wrapping_add(1);
    pool.left -= 1;
    Ok(())
}

fn plan(text: &[u8], mut pool: Pool, out: &mut Vec<u8>) -> Result<(), (usize, Refusal)> {
    let mut held = HashMap::new();
    for (index, line) in text.split_inclusive(|byte| *byte == b'\n').enumerate() {
        let line = line.strip_suffix(b"\n").unwrap_or(line);
        add(line, &mut pool, &mut held, out).map_err(|refusal| (index + 1, refusal))?;
    }
    Ok(())
}

fn refused(line: usize, refusal: Refusal) -> ExitCode {
    match refusal {
        Refusal::BadKey => eprintln!("wgr: line {line}: bad_field key"),
        Refusal::ServerKey => eprintln!("wgr: line {line}: server_key"),
        Refusal::KeyHeld(number) => eprintln!("wgr: line {line}: key_held {number}"),
        Refusal::CapacityReached => eprintln!("wgr: line {line}: capacity_reached"),
        Refusal::PoolFull => eprintln!("wgr: line {line}: pool_full"),
    }
    ExitCode::from(2)
}

fn device() -> ExitCode {
    eprintln!("wgr: device");
    ExitCode::from(1)
}

fn main() -> ExitCode {
    let words: Vec<String> = std::env::args().skip(1).collect();
    let [word, pool] = words.as_slice() else {
        eprintln!("usage: plan POOL");
        return ExitCode::from(2);
    };
    if word != "plan" {
        eprintln!("usage: plan POOL");
        return ExitCode::from(2);
    }
    let pool = match pool_of(pool) {
        Ok(pool) => pool,
        Err(PoolError::BadField) => {
            eprintln!("wgr: bad_field pool");
            return ExitCode::from(2);
        }
        Err(PoolError::BadPool) => {
            eprintln!("wgr: bad_pool");
            return ExitCode::from(2);
        }
    };
    let mut text = Vec::new();
    if io::stdin().lock().read_to_end(&mut text).is_err() {
        return device();
    }
    let mut out = Vec::new();
    let result = plan(&text, pool, &mut out);
    let mut stdout = io::stdout().lock();
    if stdout.write_all(&out).and_then(|()| stdout.flush()).is_err() {
        return device();
    }
    match result {
        Ok(()) => ExitCode::SUCCESS,
        Err((line, refusal)) => refused(line, refusal),
    }
}

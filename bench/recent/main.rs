//! Times a request on a network that isn't in memory, the next one, which may load it, one on the network in
//! memory, and the first after an order.
//!
//! Words: a register of which tenant-1 has a network, a file with a request on it, and how many rounds count,
//! of which the best is shown. Prints the nanoseconds of the four, a line each.
//!
//! This is Rattle, and its name doesn't end in `.rt` since it belongs to none of the repository's
//! crates: `bench/orders` makes it one in a folder of its own.
#![tactic(auto)]

use anyhow::{Context, Result, bail};
use sqlite::{Alter, Unknown};
use std::alloc::Global;
use std::env;
use std::fs;
use std::time::Instant;
use wgr_core::Name;
use wgr_file::{close, open_register};
use wgr_office::{Answer, Event, Office};
use wgr_orders::Order;

// The moment of each request; no lease ends before it.
const NOW: u64 = 1_000_000;

// The nanoseconds of one request.
fn ask<S: Alter>(rt: &HostRuntime, office: &mut Office<S>, asked: &[u8]) -> Result<u128> {
    let start = Instant::now(rt)?;
    let answer = office.answer(rt.alloc(), NOW, asked);
    let spent = start.elapsed(rt)?.as_nanos();
    if !answer.reply().starts_with(b"HTTP/1.1 200 ") {
        bail!("a request is refused");
    }
    Ok(spent)
}

fn add_tenant<S: Alter>(alloc: Global, office: &mut Office<S>, number: u32) -> Result<()> {
    let text = format!(in alloc; "new-{number}")?;
    let name = Name::read(alloc, text.as_bytes())?.context("no name")?;
    let mut events = Vec::new(alloc);
    events.push(Event::Order(Order::AddTenant { name }))?;
    match office.run(alloc, events.as_slice())?.as_slice() {
        [Answer::Order(Ok(_))] => Ok(()),
        _ => bail!("an order is refused"),
    }
}

// The nanoseconds of two requests.
fn ask_twice<S: Alter>(
    rt: &HostRuntime,
    office: &mut Office<S>,
    asked: &[u8],
) -> Result<(u128, u128)> {
    let one = ask(rt, office, asked)?;
    let other = ask(rt, office, asked)?;
    Ok((one, other))
}

// The nanoseconds of the four requests.
fn ask_all<S: Alter>(
    rt: &HostRuntime,
    office: &mut Office<S>,
    asked: &[u8],
    round: u32,
) -> Result<(u128, u128, u128, u128)> {
    let (first, second) = ask_twice(rt, office, asked)?;
    let kept = ask(rt, office, asked)?;
    add_tenant(rt.alloc(), office, round)?;
    let after = ask(rt, office, asked)?;
    Ok((first, second, kept, after))
}

// The same on the register in the file, which is opened for this.
fn measure(
    rt: &HostRuntime,
    path: &str,
    asked: &[u8],
    round: u32,
) -> Result<(u128, u128, u128, u128)> {
    let Ok(register) = open_register(rt, path, Unknown) else {
        bail!("the register can't be opened");
    };
    match Office::new(rt.alloc(), register) {
        Ok(office) => {
            let mut office = office;
            let spent = ask_all(rt, &mut office, asked, round);
            let _ = close(office.into_register());
            spent
        }
        Err(register) => {
            let _ = close(register);
            bail!("no memory")
        }
    }
}

fn main(rt: HostRuntime) -> Result<()> {
    let mut words = env::args(&rt)?.skip(1);
    let path = words.next().context("a register is missing")?;
    let asked = fs::read(&rt, words.next().context("a request is missing")?.as_str())?;
    let rounds = words.next().context("a number is missing")?.parse::<u32>()?;
    let (mut first, mut second) = (u128::MAX, u128::MAX);
    let (mut kept, mut after) = (u128::MAX, u128::MAX);
    for round in 0..rounds {
        let spent = measure(&rt, path.as_str(), &asked, round)?;
        first = first.min(spent.0);
        second = second.min(spent.1);
        kept = kept.min(spent.2);
        after = after.min(spent.3);
    }
    println!(rt; "{first}\n{second}\n{kept}\n{after}")?;
    Ok(())
}

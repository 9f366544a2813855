//! Times each command on networks in memory. Words: how many peers and routes a network has, and
//! how many rounds count, of which the best is shown.
//!
//! Prints a line for each command of each network: the network, the command, how many calls a
//! round has, and the nanoseconds of the best round of `Network::act` and of `Network::apply`,
//! where a command that only reads has `-` for the latter. `load` is no command: its time is that
//! of `Network::of`.
//!
//! This is Rattle, and its name doesn't end in `.rt` since it belongs to none of the repository's
//! crates: `bench/run` makes it one in a folder of its own.
#![tactic(auto)]

use anyhow::{Context, Result, bail};
use std::alloc::Global;
use std::env;
use std::time::Instant;
use wgr_core::{
    Capacity, Command, Count, Host, Items, Label, LeaseEnd, Network, Parts, Peer, Pool, Port, SeenPeer,
    Status,
};
use wgr_text::{Addr, Family, Key, Prefix};

// How many calls a round has, on peers and routes that lie evenly in the network.
const CALLS: u32 = 16;
// The moment of each command; each lease is longer.
const NOW: u64 = 1_000_000;
// The first of the addresses 10.0.0.0/8, which is the pool.
const POOL: u32 = 10 << 24;

/// How a network's addresses and routes lie.
#[derive(Clone, Copy)]
enum Layout {
    /// The peers have the lowest addresses in the order of their numbers, as where none is ever
    /// named, and no route lies in the pool.
    Dense,
    /// The peers have every other address, in an order that isn't that of their numbers, and
    /// routes hold those between: no two addresses make one run.
    Sparse,
}

/// A command on one peer or route of a network.
#[derive(Clone, Copy)]
enum Kind {
    AddNamed,
    AddLowest,
    MoveNamed,
    MoveLowest,
    Revoke,
    Route,
    Unroute,
    Renew,
    List,
    OwnerPeer,
    OwnerRoute,
}

const KINDS: [Kind; 11] = [
    Kind::AddNamed,
    Kind::AddLowest,
    Kind::MoveNamed,
    Kind::MoveLowest,
    Kind::Revoke,
    Kind::Route,
    Kind::Unroute,
    Kind::Renew,
    Kind::List,
    Kind::OwnerPeer,
    Kind::OwnerRoute,
];

impl Layout {
    fn name(self) -> &'static str {
        match self {
            Layout::Dense => "dense",
            Layout::Sparse => "sparse",
        }
    }

    // The address of the peer at this index, of `size`.
    fn peer_address(self, size: u32, index: u32) -> Option<Addr> {
        let place = match self {
            Layout::Dense => index,
            Layout::Sparse => {
                // 1,597 is odd, so below a power of two each place comes once. The last peer has
                // the last place: a network without it has no gap below its end.
                let last = size.checked_sub(1)?;
                let turned = last
                    .checked_sub(index)?
                    .checked_mul(1597)?
                    .checked_rem(size)?;
                last.checked_sub(turned)?.checked_mul(2)?
            }
        };
        ip4((POOL + 2).checked_add(place)?)
    }

    // The prefix of the route at this index. They rise with the index.
    fn route(self, index: u32) -> Option<Prefix> {
        match self {
            Layout::Dense => net24(20, index),
            Layout::Sparse => {
                let place = index.checked_mul(2)?;
                Some(Prefix::full(ip4((POOL + 3).checked_add(place)?)?))
            }
        }
    }

    // The parts of a network with this many peers and routes, in which `size` of each have room.
    fn parts(self, alloc: Global, size: u32, count: u32) -> Result<Parts> {
        let mut peers = Vec::new(alloc);
        let mut routes = Vec::new(alloc);
        for index in 0..count {
            let address = self.peer_address(size, index).context("no address")?;
            peers.push(peer(alloc, index, address)?)?;
            let route = self.route(index).context("no route")?;
            // 421 is odd, so the routes of neighbours lead to peers far apart.
            let target = index.checked_mul(421).and_then(|n| n.checked_rem(count));
            routes.push((route, number_at(target.context("no target")?)?))?;
        }
        let capacity = u16::try_from(size).ok().and_then(Capacity::new);
        Ok(Parts {
            pool: pool()?,
            host: Host::read(alloc, b"vpn.example.net")?.context("no host")?,
            port: Port::new(51820).context("no port")?,
            server: Key([255; 32]),
            capacity: capacity.context("no capacity")?,
            next: number_at(count)?,
            peers,
            routes,
        })
    }

    fn network(self, alloc: Global, size: u32, count: u32) -> Result<Network> {
        Network::of(alloc, self.parts(alloc, size, count)?)?.context("no network")
    }
}

impl Kind {
    fn name(self) -> &'static str {
        match self {
            Kind::AddNamed => "add_named",
            Kind::AddLowest => "add_lowest",
            Kind::MoveNamed => "move_named",
            Kind::MoveLowest => "move_lowest",
            Kind::Revoke => "revoke",
            Kind::Route => "route",
            Kind::Unroute => "unroute",
            Kind::Renew => "renew",
            Kind::List => "list",
            Kind::OwnerPeer => "owner_peer",
            Kind::OwnerRoute => "owner_route",
        }
    }

    // Whether the network has to have room for one more peer or route.
    fn needs_room(self) -> bool {
        matches!(self, Kind::AddNamed | Kind::AddLowest | Kind::Route)
    }

    // The command on the peer or the route at this index.
    fn command(self, alloc: Global, layout: Layout, size: u32, index: u32) -> Result<Command> {
        let number = number_at(index)?;
        let own = layout.peer_address(size, index).context("no address")?;
        let route = layout.route(index).context("no route")?;
        // An address of the pool above all that are held, and a prefix before all routes.
        let free = index.checked_add(POOL + (1 << 20)).and_then(ip4);
        let free = free.context("no free address")?;
        let prefix = net24(5, index).context("no free prefix")?;
        Ok(match self {
            Kind::AddNamed => added(alloc, index, Some(free))?,
            Kind::AddLowest => added(alloc, index, None)?,
            Kind::MoveNamed => Command::Move {
                number,
                address: Some(free),
            },
            Kind::MoveLowest => Command::Move {
                number,
                address: None,
            },
            Kind::Revoke => Command::Revoke { number },
            Kind::Route => Command::Route { number, prefix },
            Kind::Unroute => Command::Unroute { prefix: route },
            Kind::Renew => Command::Renew {
                number,
                until: LeaseEnd::new(NOW + 7200).context("no end")?,
            },
            Kind::List => Command::List,
            Kind::OwnerPeer => Command::Owner { address: own },
            Kind::OwnerRoute => Command::Owner {
                address: route.address(),
            },
        })
    }
}

fn ip4(number: u32) -> Option<Addr> {
    Addr::new(Family::V4, u128::from(number))
}

// The prefix of length 24 at this index above a first octet.
fn net24(octet: u8, index: u32) -> Option<Prefix> {
    let place = index.checked_mul(256)?;
    Prefix::masked(ip4((u32::from(octet) << 24).checked_add(place)?)?, 24)
}

fn pool() -> Result<Pool> {
    match Pool::new(ip4(POOL).context("no address")?, 8) {
        Ok(pool) => Ok(pool),
        Err(_) => bail!("no pool"),
    }
}

fn number_at(index: u32) -> Result<u32> {
    Ok(index.checked_add(1).context("too many peers")?)
}

fn key(index: u32, last: u8) -> Key {
    let [a, b, c, d] = index.to_le_bytes();
    let mut bytes = [last; 32];
    bytes[0] = a;
    bytes[1] = b;
    bytes[2] = c;
    bytes[3] = d;
    Key(bytes)
}

fn label(alloc: Global) -> Result<Label> {
    Label::read(alloc, b"a laptop in the office")?.context("no label")
}

fn peer(alloc: Global, index: u32, address: Addr) -> Result<Peer> {
    Ok(Peer {
        number: number_at(index)?,
        key: key(index, 0),
        label: label(alloc)?,
        address,
        until: LeaseEnd::new(NOW + 3600).context("no end")?,
        keepalive: 25,
        status: None,
    })
}

// A peer that the network hasn't got.
fn added(alloc: Global, index: u32, address: Option<Addr>) -> Result<Command> {
    Ok(Command::Add {
        key: key(index, 1),
        label: label(alloc)?,
        address,
        until: LeaseEnd::new(NOW + 3600).context("no end")?,
        keepalive: 25,
    })
}

// The commands of a round.
fn commands(alloc: Global, kind: Kind, layout: Layout, size: u32) -> Result<Vec<Command>> {
    let mut commands = Vec::new(alloc);
    for call in 0..CALLS {
        let index = (size / CALLS).checked_mul(call).context("too many peers")?;
        commands.push(kind.command(alloc, layout, size, index)?)?;
    }
    Ok(commands)
}

// The nanoseconds of the best round of answers; what is answered is let go within them.
fn best_act(
    rt: &HostRuntime,
    network: &Network,
    commands: &[Command],
    rounds: u32,
) -> Result<u128> {
    let mut best = u128::MAX;
    for _ in 0..rounds {
        let start = Instant::now(rt)?;
        for command in commands {
            if network.act(rt.alloc(), NOW, command).is_err() {
                bail!("a command is refused");
            }
        }
        best = best.min(start.elapsed(rt)?.as_nanos());
    }
    Ok(best)
}

// The nanoseconds that the command's change takes on a copy of the network, if it makes one.
fn apply_once(rt: &HostRuntime, network: &Network, command: &Command) -> Result<Option<u128>> {
    let mut copy = network.live_at(rt.alloc(), NOW)?;
    let Ok((_reply, given)) = copy.act(rt.alloc(), NOW, command) else {
        bail!("a command is refused");
    };
    let Some(change) = given else {
        return Ok(None);
    };
    let start = Instant::now(rt)?;
    copy.apply(rt.alloc(), change)?;
    Ok(Some(start.elapsed(rt)?.as_nanos()))
}

// The nanoseconds of the best round of changes, if the commands make any.
fn best_apply(
    rt: &HostRuntime,
    network: &Network,
    commands: &[Command],
    rounds: u32,
) -> Result<Option<u128>> {
    let mut best = u128::MAX;
    for _ in 0..rounds {
        let mut spent = 0u128;
        for command in commands {
            match apply_once(rt, network, command)? {
                Some(nanos) => spent = spent.saturating_add(nanos),
                None => return Ok(None),
            }
        }
        best = best.min(spent);
    }
    Ok(Some(best))
}

fn time_kind(rt: &HostRuntime, kind: Kind, layout: Layout, size: u32, rounds: u32) -> Result<()> {
    let commands = commands(rt.alloc(), kind, layout, size)?;
    let count = if kind.needs_room() {
        size.checked_sub(1).context("no peers")?
    } else {
        size
    };
    let network = layout.network(rt.alloc(), size, count)?;
    let act = best_act(rt, &network, &commands, rounds)?;
    let (layout, kind) = (layout.name(), kind.name());
    match best_apply(rt, &network, &commands, rounds)? {
        Some(apply) => println!(rt; "{layout} {kind} {CALLS} {act} {apply}")?,
        None => println!(rt; "{layout} {kind} {CALLS} {act} -")?,
    }
    Ok(())
}

// A peer with three prefixes: its address, a route of its own, and one that each line takes from the
// one before. The first has no route of its own, so that there are no more routes than `size`.
fn seen(alloc: Global, layout: Layout, size: u32, index: u32) -> Result<SeenPeer> {
    let none = Count::new(0);
    let address = layout.peer_address(size, index).context("no address")?;
    let everything = ip4(0).and_then(|address| Prefix::masked(address, 0));
    let mut allowed = Vec::new(alloc);
    allowed.push(Prefix::full(address))?;
    allowed.push(everything.context("no prefix")?)?;
    if index > 0 {
        let turned = index.checked_mul(421).and_then(|n| n.checked_rem(size));
        let route = turned.and_then(|turned| layout.route(turned));
        allowed.push(route.context("no route")?)?;
    }
    Ok(SeenPeer {
        key: key(index, 0),
        allowed: Items::of(allowed),
        status: Status {
            handshake: none,
            received: none,
            sent: none,
        },
        keepalive: 25,
    })
}

// A dump of `size` lines, which an empty network takes over.
fn time_adoption(rt: &HostRuntime, layout: Layout, size: u32, rounds: u32) -> Result<()> {
    let mut lines = Vec::new(rt.alloc());
    for index in 0..size {
        lines.push(seen(rt.alloc(), layout, size, index)?)?;
    }
    let mut commands = Vec::new(rt.alloc());
    commands.push(Command::Adopt {
        server: None,
        lines: Items::of(lines),
    })?;
    let network = layout.network(rt.alloc(), size, 0)?;
    let act = best_act(rt, &network, &commands, rounds)?;
    let layout_name = layout.name();
    match best_apply(rt, &network, &commands, rounds)? {
        Some(apply) => println!(rt; "{layout_name} adopt 1 {act} {apply}")?,
        None => bail!("a dump changes the network"),
    }
    Ok(())
}

// A network that is made of its parts, as where they come from a store.
fn time_load(rt: &HostRuntime, layout: Layout, size: u32, rounds: u32) -> Result<()> {
    let mut best = u128::MAX;
    for _ in 0..rounds {
        let parts = layout.parts(rt.alloc(), size, size)?;
        let start = Instant::now(rt)?;
        let network = Network::of(rt.alloc(), parts)?;
        best = best.min(start.elapsed(rt)?.as_nanos());
        if network.is_none() {
            bail!("no network");
        }
    }
    let layout = layout.name();
    println!(rt; "{layout} load 1 {best} -")?;
    Ok(())
}

fn number(word: Option<String>) -> Result<u32> {
    Ok(word.context("a number is wanting")?.parse::<u32>()?)
}

fn main(rt: HostRuntime) -> Result<()> {
    let mut words = env::args(&rt)?.skip(1);
    let size = number(words.next())?;
    let rounds = number(words.next())?;
    for layout in [Layout::Dense, Layout::Sparse] {
        for kind in KINDS {
            time_kind(&rt, kind, layout, size, rounds)?;
        }
        time_adoption(&rt, layout, size, rounds)?;
        time_load(&rt, layout, size, rounds)?;
    }
    Ok(())
}

//! A network of the register: loaded from its rows, asked, and its changes committed.
//!
//! The statements are those of `wgr`, but for its columns of NULL. What the benchmarks never ask for ends
//! the program: other refusals than those of `Refusal`, and rows that aren't good. `rows.rs` has what asks
//! the rows of a network that isn't loaded.

use crate::prefix::{Family, Prefix};
use crate::sqlite::{Connection, Row, Value};
use std::collections::{BTreeMap, HashMap, HashSet};
use std::ops::Range;

pub const MAX_ROUTES: usize = 4096;

/// From so many routes on, it is asked whether the network has any.
const MANY_ROUTES: usize = 64;

/// The query of networks, with what stands behind it.
macro_rules! networks {
    ($rest:literal) => {
        concat!(
            "SELECT id, tenant, name, family, lo, length, host, port, server, capacity, next FROM network",
            $rest
        )
    };
}

/// What a running interface last showed of a peer.
#[derive(Clone, Copy, PartialEq)]
pub struct Status {
    pub handshake: i64,
    pub received: i64,
    pub sent: i64,
}

#[derive(Clone)]
pub struct Peer {
    pub number: u32,
    pub key: [u8; 32],
    pub label: String,
    pub address: Prefix,
    pub until: i64,
    pub keepalive: u32,
    pub status: Option<Status>,
}

pub struct Network {
    pub id: u32,
    pub tenant: u32,
    pub name: String,
    pub pool: Prefix,
    pub host: String,
    pub port: u32,
    pub server: [u8; 32],
    pub capacity: usize,
    pub next: u32,
    /// By number.
    pub peers: Vec<Peer>,
    /// In order, each with its peer's number.
    pub routes: Vec<(Prefix, u32)>,
}

/// What a new peer asks for, beside an address.
pub struct Wanted {
    pub key: [u8; 32],
    pub label: String,
    pub until: i64,
    pub keepalive: u32,
}

/// A peer as a line of a dump shows it.
pub struct Seen {
    pub key: [u8; 32],
    pub allowed: Vec<Prefix>,
    pub status: Status,
    pub keepalive: u32,
}

/// Peers that go, and that come or take the place of the one of their number; routes that go, and that
/// come or lead elsewhere from now on; and the next number.
pub struct Change {
    removed: Vec<u32>,
    routes_gone: Vec<Prefix>,
    pub peers: Vec<Peer>,
    routes: Vec<(Prefix, u32)>,
    next: u32,
}

/// What an adoption changes, the numbers of its new peers, and how many lines found their key held.
pub struct Adoption {
    pub change: Change,
    pub added: Range<u32>,
    pub known: usize,
}

/// Why a command is refused.
pub enum Refusal {
    NoSuchPeer,
    NoSuchRoute,
    NobodysAddress,
    KeyHeld(u32),
}

pub fn family_value(family: Family) -> Value<'static> {
    Value::Int(if family == Family::V4 { 4 } else { 6 })
}

fn family_of(number: i64) -> Family {
    match number {
        4 => Family::V4,
        6 => Family::V6,
        _ => panic!("no family"),
    }
}

/// The prefix in three columns of a row.
pub fn prefix_at(row: &Row, at: i32) -> Prefix {
    let prefix = Prefix {
        family: family_of(row.int(at)),
        number: u128::from_be_bytes(row.array(at + 1)),
        length: row.int(at + 2) as u32,
    };
    assert!(prefix.length <= prefix.family.width() && prefix == prefix.masked(), "no prefix");
    prefix
}

pub fn peer_id(network: u32, number: u32) -> Value<'static> {
    Value::Int((i64::from(network) << 20) + i64::from(number))
}

pub fn number_of(id: i64, network: u32) -> u32 {
    assert!(id >> 20 == i64::from(network), "a peer of another network");
    (id & 0xF_FFFF) as u32
}

/// An allowed prefix of a network, with its peer's number.
pub fn allowed_at(row: &Row, network: u32) -> (Prefix, u32) {
    let prefix = prefix_at(row, 1);
    assert!(row.array(4) == prefix.last().to_be_bytes(), "another last address");
    (prefix, number_of(row.int(5), network))
}

fn status_at(row: &Row, at: i32) -> Option<Status> {
    let (handshake, received, sent) = (row.int(at), row.int(at + 1), row.int(at + 2));
    (!row.is_null(at)).then_some(Status { handshake, received, sent })
}

/// A peer as its own row has it, without its address.
pub fn peer_at(row: &Row, network: u32) -> Peer {
    Peer {
        number: number_of(row.int(0), network),
        key: row.array(2),
        label: row.text(3),
        address: Prefix::full(Family::V4, 0),
        until: row.int(4),
        keepalive: row.int(5) as u32,
        status: status_at(row, 6),
    }
}

fn load_peers(db: &mut Connection, network: u32) -> Vec<Peer> {
    let id = [Value::Int(i64::from(network))];
    let mut peers = db.rows(
        "SELECT id, network, key, label, until, keepalive, handshake, received, sent FROM peer WHERE network = ?1 ORDER BY id",
        &id,
        |row| peer_at(row, network),
    );
    let mut addresses = db.rows(
        "SELECT network, family, lo, length, hi, peer, kind FROM allowed WHERE network = ?1 AND kind <> 'route'",
        &id,
        |row| allowed_at(row, network),
    );
    addresses.sort_unstable_by_key(|(_, number)| *number);
    assert!(peers.len() == addresses.len(), "a peer has one address");
    for (peer, (address, number)) in peers.iter_mut().zip(addresses) {
        assert!(peer.number == number, "a peer has one address");
        peer.address = address;
    }
    peers
}

fn load_routes(db: &mut Connection, network: u32) -> Vec<(Prefix, u32)> {
    db.rows(
        "SELECT network, family, lo, length, hi, peer, kind FROM allowed WHERE network = ?1 AND kind = 'route' ORDER BY family, lo, length",
        &[Value::Int(i64::from(network))],
        |row| allowed_at(row, network),
    )
}

/// The network of this row, without peers and routes.
fn settled_at(row: &Row) -> Network {
    Network {
        id: row.int(0) as u32,
        tenant: row.int(1) as u32,
        name: row.text(2),
        pool: prefix_at(row, 3),
        host: row.text(6),
        port: row.int(7) as u32,
        server: row.array(8),
        capacity: row.int(9) as usize,
        next: row.int(10) as u32,
        peers: Vec::new(),
        routes: Vec::new(),
    }
}

pub fn tenant_of_token(db: &mut Connection, digest: &[u8; 32]) -> Option<u32> {
    let sql = "SELECT digest, tenant FROM token WHERE digest = ?1";
    db.rows(sql, &[Value::Blob(digest)], |row| row.int(1) as u32).pop()
}

/// Whether the token of this digest only reads.
pub fn is_reader(db: &mut Connection, digest: &[u8; 32]) -> bool {
    let sql = "SELECT digest FROM reader WHERE digest = ?1";
    !db.rows(sql, &[Value::Blob(digest)], |_| ()).is_empty()
}

/// The id of the tenant's network of this name.
pub fn network_id(db: &mut Connection, tenant: u32, name: &str) -> Option<u32> {
    let values = [Value::Int(i64::from(tenant)), Value::Text(name)];
    db.rows(networks!(" WHERE tenant = ?1 AND name = ?2"), &values, |row| row.int(0) as u32).pop()
}

/// The tenant's networks by name, without peers and routes.
pub fn networks_of(db: &mut Connection, tenant: u32) -> Vec<Network> {
    let tenant = [Value::Int(i64::from(tenant))];
    let mut networks = db.rows(networks!(" WHERE tenant = ?1"), &tenant, settled_at);
    networks.sort_by(|one, other| one.name.cmp(&other.name));
    networks
}

/// The network of this id, without peers and routes.
pub fn settled(db: &mut Connection, id: u32) -> Network {
    let values = [Value::Int(i64::from(id))];
    db.rows(networks!(" WHERE id = ?1"), &values, settled_at).pop().expect("a network of this id")
}

/// All networks, without peers and routes.
pub fn all_networks(db: &mut Connection) -> Vec<Network> {
    db.rows(networks!(""), &[], settled_at)
}

/// The same, in the order of their ids.
pub fn networks_by_id(db: &mut Connection) -> Vec<Network> {
    db.rows(networks!(" ORDER BY id"), &[], settled_at)
}

impl Peer {
    pub fn is_live(&self, now: i64) -> bool {
        self.until == 0 || now < self.until
    }
}

impl Network {
    pub fn load(db: &mut Connection, id: u32) -> Network {
        let settled = settled(db, id);
        let (peers, routes) = (load_peers(db, id), load_routes(db, id));
        Network { peers, routes, ..settled }
    }

    /// The server's address, at full length.
    pub fn server_address(&self) -> Prefix {
        Prefix::full(self.pool.family, self.pool.number + 1)
    }

    /// The last address that the pool may give.
    fn last_address(&self) -> u128 {
        match self.pool.family {
            Family::V4 => self.pool.last() - 1,
            Family::V6 => self.pool.last(),
        }
    }

    pub fn gives(&self, prefix: &Prefix) -> bool {
        prefix.family == self.pool.family
            && prefix.length == prefix.family.width()
            && (self.first_address()..=self.last_address()).contains(&prefix.number)
    }

    /// The address at full length, if the pool may give it.
    pub fn place(&self, number: u128) -> Option<Prefix> {
        (number <= self.last_address()).then(|| Prefix::full(self.pool.family, number))
    }

    /// The first address that the pool may give.
    pub fn first_address(&self) -> u128 {
        self.pool.number + 2
    }

    /// The lowest address that neither a peer but the mover nor a route in the pool has.
    fn lowest_free(&self, mover: Option<u32>) -> Option<Prefix> {
        let others = self.peers.iter().filter(|peer| Some(peer.number) != mover);
        let own = others.map(|peer| (peer.address.number, peer.address.number));
        let inner = self.routes.iter().filter(|route| self.pool.covers(&route.0));
        let mut held: Vec<_> = own.chain(inner.map(|route| (route.0.number, route.0.last()))).collect();
        held.sort_unstable();
        let mut free = self.first_address();
        for (first, last) in held {
            if first > free {
                break;
            }
            free = free.max(last + 1);
        }
        self.place(free)
    }

    pub fn peer(&self, number: u32) -> Result<&Peer, Refusal> {
        let place = self.peers.binary_search_by_key(&number, |peer| peer.number);
        place.map(|place| &self.peers[place]).map_err(|_| Refusal::NoSuchPeer)
    }

    fn no_change(&self) -> Change {
        Change {
            removed: Vec::new(),
            routes_gone: Vec::new(),
            peers: Vec::new(),
            routes: Vec::new(),
            next: self.next,
        }
    }

    /// A new peer at this address, where these go.
    pub fn with(&self, wanted: Wanted, address: Prefix, removed: Vec<u32>) -> Change {
        let Wanted { key, label, until, keepalive } = wanted;
        let peer = Peer { number: self.next, key, label, address, until, keepalive, status: None };
        Change { removed, peers: vec![peer], next: self.next + 1, ..self.no_change() }
    }

    pub fn add(&self, wanted: Wanted) -> Result<Change, Refusal> {
        assert!(wanted.key != self.server, "a refusal");
        if let Some(holder) = self.peers.iter().find(|peer| peer.key == wanted.key) {
            return Err(Refusal::KeyHeld(holder.number));
        }
        assert!(self.peers.len() < self.capacity, "a refusal");
        let address = self.lowest_free(None).expect("a refusal");
        Ok(self.with(wanted, address, Vec::new()))
    }

    /// The peer gets the lowest free address.
    pub fn relocate(&self, number: u32) -> Result<Change, Refusal> {
        let peer = self.peer(number)?.clone();
        let address = self.lowest_free(Some(number)).expect("a refusal");
        Ok(Change { peers: vec![Peer { address, ..peer }], ..self.no_change() })
    }

    pub fn renew(&self, number: u32, until: i64) -> Result<Change, Refusal> {
        let peer = self.peer(number)?.clone();
        Ok(Change { peers: vec![Peer { until, ..peer }], ..self.no_change() })
    }

    pub fn revoke(&self, number: u32) -> Result<Change, Refusal> {
        self.peer(number)?;
        Ok(Change { removed: vec![number], ..self.no_change() })
    }

    pub fn is_address(&self, prefix: &Prefix) -> bool {
        *prefix == self.server_address() || self.peers.iter().any(|peer| peer.address == *prefix)
    }

    /// The peer to which this very prefix leads.
    pub fn route(&self, prefix: &Prefix) -> Result<u32, Refusal> {
        let place = self.routes.binary_search_by_key(prefix, |route| route.0);
        place.map(|place| self.routes[place].1).map_err(|_| Refusal::NoSuchRoute)
    }

    pub fn lead(&self, prefix: Prefix, number: u32) -> Result<Change, Refusal> {
        self.peer(number)?;
        let has_room = self.route(&prefix).is_ok() || self.routes.len() < MAX_ROUTES;
        assert!(!self.is_address(&prefix) && has_room, "a refusal");
        Ok(Change { routes: vec![(prefix, number)], ..self.no_change() })
    }

    pub fn unroute(&self, prefix: Prefix) -> Result<Change, Refusal> {
        self.route(&prefix)?;
        Ok(Change { routes_gone: vec![prefix], ..self.no_change() })
    }

    /// The peer to which the longest prefix that has the address leads.
    pub fn owner(&self, address: &Prefix) -> Result<u32, Refusal> {
        let own = self.peers.iter().map(|peer| (peer.address, peer.number));
        let allowed = own.chain(self.routes.iter().copied());
        let having = allowed.filter(|(prefix, _)| prefix.covers(address));
        let longest = having.max_by_key(|(prefix, _)| prefix.length);
        longest.map(|(_, number)| number).ok_or(Refusal::NobodysAddress)
    }

    pub fn routes_to(&self, number: u32) -> Vec<Prefix> {
        let own = self.routes.iter().filter(|route| route.1 == number);
        own.map(|route| route.0).collect()
    }

    /// The routes of each peer.
    pub fn routes_by_peer(&self) -> HashMap<u32, Vec<Prefix>> {
        let mut routes: HashMap<u32, Vec<Prefix>> = HashMap::new();
        for (prefix, number) in &self.routes {
            routes.entry(*number).or_default().push(*prefix);
        }
        routes
    }

    /// Those of these peers that aren't the network's as they are.
    fn altered(&self, peers: Vec<Peer>) -> Vec<Peer> {
        let differs = |place: usize, peer: &Peer| self.peers.get(place).is_none_or(|was| was.status != peer.status);
        let all = peers.into_iter().enumerate();
        all.filter(|(place, peer)| differs(*place, peer)).map(|(_, peer)| peer).collect()
    }

    /// The peers of all lines, each of which names an address. One whose key is held gives its status alone.
    pub fn adopt(&self, server: Option<[u8; 32]>, lines: &[Seen]) -> Adoption {
        assert!(server.is_none_or(|key| key == self.server), "a refusal");
        let mut peers = self.peers.clone();
        let mut places: HashMap<_, _> = peers.iter().enumerate().map(|(place, peer)| (peer.key, place)).collect();
        let mut addresses: HashSet<_> = self.peers.iter().map(|peer| peer.address).collect();
        let mut routes: BTreeMap<_, _> = self.routes.iter().copied().collect();
        let mut change = self.no_change();
        let mut known = 0;
        for line in lines {
            if let Some(place) = places.get(&line.key) {
                peers[*place].status = Some(line.status);
                known += 1;
                continue;
            }
            let named = line.allowed.iter().find(|prefix| self.gives(prefix));
            let address = *named.expect("a line that names no address");
            let is_fresh = !routes.contains_key(&address) && addresses.insert(address);
            places.insert(line.key, peers.len());
            assert!(line.key != self.server && is_fresh && places.len() <= self.capacity, "a refusal");
            let number = change.next;
            for prefix in line.allowed.iter().filter(|prefix| **prefix != address) {
                assert!(*prefix != self.server_address() && !addresses.contains(prefix), "a refusal");
                routes.insert(*prefix, number);
                assert!(routes.len() <= MAX_ROUTES, "a refusal");
                change.routes.push((*prefix, number));
            }
            peers.push(line.peer(number, address));
            change.next += 1;
        }
        // A line may take a route from the one before; where there was none, each is put once.
        if self.routes.is_empty() {
            change.routes = routes.into_iter().collect();
        }
        change.peers = self.altered(peers);
        Adoption { added: self.next..change.next, change, known }
    }

    /// Makes the change in memory.
    pub fn apply(&mut self, change: Change) {
        let gone: HashSet<_> = change.removed.into_iter().collect();
        let gone_routes: HashSet<_> = change.routes_gone.into_iter().collect();
        self.peers.retain(|peer| !gone.contains(&peer.number));
        self.routes.retain(|route| !gone.contains(&route.1) && !gone_routes.contains(&route.0));
        for peer in change.peers {
            match self.peers.binary_search_by_key(&peer.number, |peer| peer.number) {
                Ok(place) => self.peers[place] = peer,
                Err(place) => self.peers.insert(place, peer),
            }
        }
        if let [(prefix, number)] = change.routes[..] {
            match self.routes.binary_search_by_key(&prefix, |route| route.0) {
                Ok(place) => self.routes[place].1 = number,
                Err(place) => self.routes.insert(place, (prefix, number)),
            }
        } else if !change.routes.is_empty() {
            let mut routes: BTreeMap<_, _> = self.routes.drain(..).collect();
            routes.extend(change.routes);
            self.routes = routes.into_iter().collect();
        }
        self.next = change.next;
    }
}

impl Change {
    /// When the first lease of the peers that come or take another's place ends; nothing where none does.
    pub fn soonest_end(&self) -> Option<i64> {
        self.peers.iter().map(|peer| peer.until).filter(|end| *end != 0).min()
    }

    /// Writes the change of the network of this id in one commit.
    pub fn commit(&self, db: &mut Connection, id: u32) {
        db.commit(|db| {
            for number in &self.removed {
                drop_peer_row(db, id, *number);
                drop_allowed(db, id, *number);
            }
            for prefix in &self.routes_gone {
                drop_route(db, id, prefix);
            }
            // The rows of all go first, since two of them may have changed their addresses.
            drop_peers(db, id, &self.peers);
            for peer in &self.peers {
                put_peer(db, id, peer);
            }
            put_routes(db, id, &self.routes);
            let next = [Value::Int(i64::from(id)), Value::Int(i64::from(self.next))];
            db.run("UPDATE network SET next = ?2 WHERE id = ?1", &next);
        });
    }
}

impl Seen {
    fn peer(&self, number: u32, address: Prefix) -> Peer {
        Peer {
            number,
            key: self.key,
            label: String::new(),
            address,
            until: 0,
            keepalive: self.keepalive,
            status: Some(self.status),
        }
    }
}

fn drop_peer_row(db: &mut Connection, network: u32, number: u32) {
    let values = [Value::Int(i64::from(network)), peer_id(network, number)];
    db.run("DELETE FROM peer WHERE network = ?1 AND id = ?2", &values);
}

fn drop_address(db: &mut Connection, network: u32, number: u32) {
    let values = [Value::Int(i64::from(network)), peer_id(network, number)];
    db.run("DELETE FROM allowed WHERE network = ?1 AND peer = ?2 AND kind <> 'route'", &values);
}

/// The rows of peers whose numbers follow one another go by one range of each table.
fn drop_peers(db: &mut Connection, network: u32, peers: &[Peer]) {
    let follow_on = peers.is_sorted_by(|one, other| other.number == one.number + 1);
    let ([first, .., last], true) = (peers, follow_on) else {
        for peer in peers {
            drop_peer_row(db, network, peer.number);
            drop_address(db, network, peer.number);
        }
        return;
    };
    let (first, last) = (peer_id(network, first.number), peer_id(network, last.number));
    let values = [Value::Int(i64::from(network)), first, last];
    db.run("DELETE FROM peer WHERE network = ?1 AND id >= ?2 AND id <= ?3", &values);
    db.run("DELETE FROM allowed WHERE network = ?1 AND peer >= ?2 AND peer <= ?3 AND kind <> 'route'", &values);
}

fn drop_allowed(db: &mut Connection, network: u32, number: u32) {
    let values = [Value::Int(i64::from(network)), peer_id(network, number)];
    db.run("DELETE FROM allowed WHERE network = ?1 AND peer = ?2", &values);
}

fn drop_route(db: &mut Connection, network: u32, prefix: &Prefix) {
    db.run(
        "DELETE FROM allowed WHERE network = ?1 AND family = ?2 AND lo = ?3 AND length = ?4 AND kind = 'route'",
        &[
            Value::Int(i64::from(network)),
            family_value(prefix.family),
            Value::Blob(&prefix.number.to_be_bytes()),
            Value::Int(i64::from(prefix.length)),
        ],
    );
}

fn has_route(db: &mut Connection, network: u32) -> bool {
    let found = db.rows(
        "SELECT peer FROM allowed WHERE network = ?1 AND kind = 'route' LIMIT 1",
        &[Value::Int(i64::from(network))],
        |row| row.int(0),
    );
    !found.is_empty()
}

/// Where a network has no route, many that come are put without a statement for each that drops what isn't there.
fn put_routes(db: &mut Connection, network: u32, routes: &[(Prefix, u32)]) {
    let are_ordered = routes.is_sorted_by(|one, other| one.0 < other.0);
    let are_new = routes.len() >= MANY_ROUTES && are_ordered && !has_route(db, network);
    for (prefix, number) in routes {
        if !are_new {
            drop_route(db, network, prefix);
        }
        put_allowed(db, network, prefix, *number, "route");
    }
}

fn put_peer(db: &mut Connection, network: u32, peer: &Peer) {
    let of_status = |part: fn(Status) -> i64| peer.status.map_or(Value::Null, |it| Value::Int(part(it)));
    db.run(
        "INSERT INTO peer (id, network, key, label, until, keepalive, handshake, received, sent) VALUES (?1, ?2, ?3, ?4, ?5, ?6, ?7, ?8, ?9)",
        &[
            peer_id(network, peer.number),
            Value::Int(i64::from(network)),
            Value::Blob(&peer.key),
            Value::Text(&peer.label),
            Value::Int(peer.until),
            Value::Int(i64::from(peer.keepalive)),
            of_status(|status| status.handshake),
            of_status(|status| status.received),
            of_status(|status| status.sent),
        ],
    );
    put_allowed(db, network, &peer.address, peer.number, "address");
}

fn put_allowed(db: &mut Connection, network: u32, prefix: &Prefix, number: u32, kind: &str) {
    db.run(
        "INSERT INTO allowed (network, family, lo, length, hi, peer, kind) VALUES (?1, ?2, ?3, ?4, ?5, ?6, ?7)",
        &[
            Value::Int(i64::from(network)),
            family_value(prefix.family),
            Value::Blob(&prefix.number.to_be_bytes()),
            Value::Int(i64::from(prefix.length)),
            Value::Blob(&prefix.last().to_be_bytes()),
            peer_id(network, number),
            Value::Text(kind),
        ],
    );
}

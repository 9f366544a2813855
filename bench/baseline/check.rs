//! All rows of a register, read and tested as `wgr` does when it opens one: by the same statements, but
//! for columns of NULL. Rows that aren't good end the program.

use crate::network::{networks_by_id, Network, Peer, MAX_ROUTES};
use crate::prefix::{Family, Prefix};
use crate::sqlite::{Connection, Row};
use std::collections::HashSet;

const MOST_ENTRIES: usize = 65_536;
const MOST_PEERS: usize = 4096;
const LAST_NEXT: u32 = 1_000_001;
const LAST_END: i64 = 9_007_199_254_740_991;

fn ensure(is_good: bool) {
    assert!(is_good, "rows that aren't good");
}

/// Whether each comes before the next.
fn rise<T: PartialOrd>(keys: &[T]) -> bool {
    keys.windows(2).all(|pair| pair[0] < pair[1])
}

/// Whether no two are the same.
fn differ<T: Ord>(mut keys: Vec<T>) -> bool {
    keys.sort_unstable();
    rise(&keys)
}

fn is_name(text: &str) -> bool {
    (1..=32).contains(&text.len()) && text.bytes().all(|byte| matches!(byte, b'a'..=b'z' | b'0'..=b'9' | b'-'))
}

/// A host as it is kept, which the benchmarks have as a name.
fn is_host(text: &str) -> bool {
    (1..=253).contains(&text.len())
        && text.bytes().all(|byte| matches!(byte, b'a'..=b'z' | b'0'..=b'9' | b'-' | b'.'))
}

fn is_label(text: &str) -> bool {
    text.len() <= 64 && text.bytes().all(|byte| (b' '..=b'~').contains(&byte))
}

fn is_pool(pool: &Prefix) -> bool {
    match pool.family {
        Family::V4 => (8..=30).contains(&pool.length),
        Family::V6 => (48..=126).contains(&pool.length),
    }
}

fn check_version(db: &mut Connection) {
    ensure(db.rows("SELECT version FROM meta", &[], |row| row.int(0)) == [3]);
}

/// Second pools, and tokens that only read, of which there are none.
fn check_later(db: &mut Connection) {
    ensure(db.rows("SELECT network FROM second", &[], |_| ()).is_empty());
    ensure(db.rows("SELECT digest FROM reader", &[], |_| ()).is_empty());
}

/// The ids of the tenants, which rise.
fn check_tenants(db: &mut Connection) -> Vec<i64> {
    let tenants = db.rows("SELECT id, name FROM tenant ORDER BY id", &[], |row| (row.int(0), row.text(1)));
    let names = db.rows("SELECT name FROM tenant ORDER BY name", &[], |row| row.text(0));
    ensure(tenants.iter().all(|(id, name)| (1..=MOST_ENTRIES as i64).contains(id) && is_name(name)));
    ensure(rise(&names));
    let ids: Vec<i64> = tenants.into_iter().map(|(id, _)| id).collect();
    ensure(rise(&ids));
    ids
}

fn check_tokens(db: &mut Connection, tenants: &[i64]) {
    let rowids = db.rows("SELECT rowid FROM token ORDER BY rowid", &[], |row| row.int(0));
    let digests = db.rows("SELECT digest FROM token ORDER BY digest", &[], |row| row.array::<32>(0));
    let owners = db.rows("SELECT tenant FROM token ORDER BY tenant", &[], |row| row.int(0));
    ensure(rise(&rowids) && rise(&digests) && digests.len() <= MOST_ENTRIES);
    ensure(owners.iter().all(|owner| tenants.binary_search(owner).is_ok()));
}

fn has_settings(network: &Network, tenants: &[i64]) -> bool {
    is_name(&network.name)
        && is_host(&network.host)
        && is_pool(&network.pool)
        && (1..=65_535).contains(&network.port)
        && (1..=MOST_PEERS).contains(&network.capacity)
        && tenants.binary_search(&i64::from(network.tenant)).is_ok()
}

/// Whether no two pools have an address in common.
fn are_apart(networks: &[Network]) -> bool {
    let mut pools: Vec<Prefix> = networks.iter().map(|network| network.pool).collect();
    pools.sort_unstable();
    pools.windows(2).all(|pair| pair[0].family != pair[1].family || pair[0].last() < pair[1].number)
}

/// The ids of the networks, which rise.
fn check_networks(db: &mut Connection, tenants: &[i64]) -> Vec<u32> {
    let networks = networks_by_id(db);
    let ids: Vec<u32> = networks.iter().map(|network| network.id).collect();
    ensure(rise(&ids) && ids.len() <= MOST_ENTRIES && ids.iter().all(|id| (1..=MOST_ENTRIES as u32).contains(id)));
    ensure(networks.iter().all(|network| has_settings(network, tenants)));
    ensure(differ(networks.iter().map(|network| (network.tenant, &network.name)).collect()));
    ensure(differ(networks.iter().map(|network| (&network.host, network.port)).collect()));
    ensure(are_apart(&networks));
    ids
}

fn is_among(row: &Row, at: i32, networks: &[u32]) -> bool {
    u32::try_from(row.int(at)).is_ok_and(|id| networks.binary_search(&id).is_ok())
}

fn is_peer(row: &Row, networks: &[u32]) -> bool {
    let nulls = (4..7).filter(|at| row.is_null(*at)).count();
    (nulls == 0 || nulls == 3) && (0..7).all(|at| row.int(at) >= 0) && is_among(row, 1, networks)
}

fn is_allowed(row: &Row, networks: &[u32]) -> bool {
    matches!(row.int(2), 4 | 6)
        && row.bytes(3).len() == 16
        && row.int(4) >= 0
        && row.bytes(5).len() == 16
        && row.int(6) >= 0
        && matches!(row.bytes(7), b"address" | b"route")
        && is_among(row, 1, networks)
}

/// Whether all rows of a query, whose first column rises, pass the test.
fn check_members(db: &mut Connection, sql: &'static str, is_good: impl Fn(&Row) -> bool) {
    let rows = db.rows(sql, &[], |row| (row.int(0), is_good(row)));
    ensure(rows.iter().all(|(_, is_good)| *is_good) && rows.windows(2).all(|pair| pair[0].0 < pair[1].0));
}

/// Whether it is a peer whose number the network has given, at an address of the pool.
fn is_member(network: &Network, peer: &Peer) -> bool {
    (1..network.next).contains(&peer.number)
        && peer.key != network.server
        && network.gives(&peer.address)
        && is_label(&peer.label)
        && peer.until <= LAST_END
        && peer.keepalive <= 65_535
}

/// Whether it keeps the rules of networks.
fn keeps_the_rules(network: &Network) -> bool {
    let keys: HashSet<_> = network.peers.iter().map(|peer| peer.key).collect();
    let addresses: HashSet<_> = network.peers.iter().map(|peer| peer.address).collect();
    let count = network.peers.len();
    let is_route = |prefix: &Prefix, number: u32| {
        network.peer(number).is_ok() && *prefix != network.server_address() && !addresses.contains(prefix)
    };
    (1..=LAST_NEXT).contains(&network.next)
        && count <= network.capacity
        && network.routes.len() <= MAX_ROUTES
        && keys.len() == count
        && addresses.len() == count
        && network.peers.iter().all(|peer| is_member(network, peer))
        && network.routes.iter().all(|(prefix, number)| is_route(prefix, *number))
}

pub fn check(db: &mut Connection) {
    check_version(db);
    let tenants = check_tenants(db);
    check_tokens(db, &tenants);
    let networks = check_networks(db, &tenants);
    check_members(
        db,
        "SELECT id, network, until, keepalive, handshake, received, sent FROM peer ORDER BY id",
        |row| is_peer(row, &networks),
    );
    check_members(
        db,
        "SELECT rowid, network, family, lo, length, hi, peer, kind FROM allowed ORDER BY rowid",
        |row| is_allowed(row, &networks),
    );
    check_later(db);
    for id in networks {
        ensure(keeps_the_rules(&Network::load(db, id)));
    }
}

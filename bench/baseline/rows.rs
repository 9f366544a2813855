//! A new peer, and the owner of an address, in a network that isn't loaded: only the rows that each needs are read.
//!
//! The statements are those of `wgr`, but for its columns of NULL, and for a plus that keeps the C library from an
//! index: it reads a range of rowids then, as `wgr` does. What is known of a network from the start is read by
//! statements of their own: `wgr` learns it as it tests all rows.

use crate::network::{allowed_at, family_value, networks_by_id, number_of, peer_at, peer_id, prefix_at, settled};
use crate::network::{Change, Network, Refusal, Wanted};
use crate::prefix::Prefix;
use crate::sqlite::{Connection, Value};
use std::collections::{HashMap, HashSet};

fn word(number: u32) -> Value<'static> {
    Value::Int(i64::from(number))
}

/// What is known of a network that isn't loaded: a moment before which none of its leases ends, and an address
/// below which none is free.
#[derive(Clone, Copy)]
pub struct Outline {
    pub soonest: i64,
    pub floor: u128,
}

/// Of each network, by its id.
pub fn outlines(db: &mut Connection) -> HashMap<u32, Outline> {
    let sql = "SELECT network, min(until) FROM peer WHERE until > 0 GROUP BY network";
    let ends: HashMap<u32, i64> = db.rows(sql, &[], |row| (row.int(0) as u32, row.int(1))).into_iter().collect();
    let mut found = HashMap::new();
    for network in networks_by_id(db) {
        let soonest = ends.get(&network.id).copied().unwrap_or(i64::MAX);
        let floor = lowest_free(db, &network, 0, &[]).map_or(0, |address| address.number);
        found.insert(network.id, Outline { soonest, floor });
    }
    found
}

/// The number of the live peer that has this key.
fn key_holder(db: &mut Connection, network: u32, now: i64, key: &[u8; 32]) -> Option<u32> {
    let found = db.rows(
        "SELECT id, network, key, label, until, keepalive, handshake, received, sent FROM peer WHERE network = ?1 AND key = ?2",
        &[word(network), Value::Blob(key)],
        |row| peer_at(row, network),
    );
    found.iter().find(|peer| peer.is_live(now)).map(|peer| peer.number)
}

/// The numbers of the expired peers among those below `next`.
fn expired(db: &mut Connection, network: u32, next: u32, now: i64) -> Vec<u32> {
    db.rows(
        "SELECT id, network, key, label, until, keepalive, handshake, received, sent FROM peer WHERE +network = ?1 AND id >= ?2 AND id <= ?3 AND until >= 1 AND until <= ?4 ORDER BY id",
        &[word(network), peer_id(network, 1), peer_id(network, next - 1), Value::Int(now)],
        |row| number_of(row.int(0), network),
    )
}

/// How many peers there are below `next`, live or expired.
fn count(db: &mut Connection, network: u32, next: u32) -> usize {
    let values = [word(network), peer_id(network, 1), peer_id(network, next - 1)];
    db.rows("SELECT id FROM peer WHERE +network = ?1 AND id >= ?2 AND id <= ?3", &values, |_| ()).len()
}

/// The lowest address that the pool may give and that neither a peer nor a route in the pool has, but for those of
/// the expired peers. Rows are read from the floor, below which none is free, up to the first gap. Where nobody is
/// expired, it doesn't matter to which peer a row leads, so that the key alone is read.
fn lowest_free(db: &mut Connection, network: &Network, floor: u128, expired: &[u32]) -> Option<Prefix> {
    let expired: HashSet<u32> = expired.iter().copied().collect();
    let mut free = floor.max(network.first_address());
    let sql = if expired.is_empty() {
        "SELECT network, family, lo, length FROM allowed WHERE network = ?1 AND family = ?2 AND lo >= ?3 AND lo <= ?4 AND length >= ?5 ORDER BY lo, length"
    } else {
        "SELECT network, family, lo, length, hi, peer, kind FROM allowed WHERE network = ?1 AND family = ?2 AND lo >= ?3 AND lo <= ?4 AND length >= ?5 ORDER BY lo, length"
    };
    db.walk(
        sql,
        &[
            word(network.id),
            family_value(network.pool.family),
            Value::Blob(&floor.max(network.pool.number).to_be_bytes()),
            Value::Blob(&network.pool.last().to_be_bytes()),
            word(network.pool.length),
        ],
        |row| {
            // No peer has the number 0.
            let (held, number) = if expired.is_empty() { (prefix_at(row, 1), 0) } else { allowed_at(row, network.id) };
            if held.number > free {
                return false;
            }
            if !expired.contains(&number) {
                free = free.max(held.last() + 1);
            }
            true
        },
    );
    network.place(free)
}

/// The live peer to which this very prefix leads.
fn prefix_holder(db: &mut Connection, network: u32, now: i64, prefix: &Prefix) -> Option<u32> {
    let found = db.rows(
        "SELECT network, family, lo, length, hi, peer, kind FROM allowed WHERE network = ?1 AND family = ?2 AND lo = ?3 AND length = ?4",
        &[
            word(network),
            family_value(prefix.family),
            Value::Blob(&prefix.number.to_be_bytes()),
            word(prefix.length),
        ],
        |row| allowed_at(row, network).1,
    );
    let number = *found.first()?;
    let peer = db.rows(
        "SELECT id, network, key, label, until, keepalive, handshake, received, sent FROM peer WHERE id = ?1",
        &[peer_id(network, number)],
        |row| peer_at(row, network),
    );
    peer.first().expect("a peer").is_live(now).then_some(number)
}

/// A new peer, which gets the lowest free address. The expired peers go; before the first lease ends none is looked
/// for, and no address below the floor is free.
pub fn add(db: &mut Connection, id: u32, now: i64, outline: Outline, wanted: Wanted) -> Result<Change, Refusal> {
    let network = settled(db, id);
    assert!(wanted.key != network.server, "a refusal");
    if let Some(number) = key_holder(db, id, now, &wanted.key) {
        return Err(Refusal::KeyHeld(number));
    }
    let (expired, floor) = if now < outline.soonest {
        (Vec::new(), outline.floor)
    } else {
        (expired(db, id, network.next, now), 0)
    };
    // There are fewer peers than numbers were given.
    let has_room = network.next as usize <= network.capacity
        || count(db, id, network.next) - expired.len() < network.capacity;
    assert!(has_room, "a refusal");
    let address = lowest_free(db, &network, floor, &expired).expect("a refusal");
    Ok(network.with(wanted, address, expired))
}

/// The live peer to which the longest prefix that has the address leads.
pub fn owner(db: &mut Connection, id: u32, now: i64, address: &Prefix) -> Result<u32, Refusal> {
    let mut having = (0..=address.length).rev().map(|length| Prefix { length, ..*address }.masked());
    having.find_map(|prefix| prefix_holder(db, id, now, &prefix)).ok_or(Refusal::NobodysAddress)
}

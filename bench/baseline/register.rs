//! The same job as the words of `wgr` on a register, as plain Rust over the C library SQLite, with no
//! proofs: what `bench/register` compares against. All rows are read and tested, and then one order is
//! done. What the benchmark never asks for ends the program: words in another order, and refusals but one.

mod check;
// `batch` uses more of these.
#[allow(dead_code)]
mod key;
#[allow(dead_code)]
mod network;
#[allow(dead_code)]
mod prefix;
mod sha256;
mod sqlite;

use network::{all_networks, family_value, network_id, tenant_of_token, Network};
use prefix::Prefix;
use sqlite::{Connection, Value};
use std::collections::HashSet;
use std::io;
use std::process::ExitCode;

fn word(number: u32) -> Value<'static> {
    Value::Int(i64::from(number))
}

fn tenant_id(db: &mut Connection, name: &str) -> Option<u32> {
    let sql = "SELECT id, name FROM tenant WHERE name = ?1";
    db.rows(sql, &[Value::Text(name)], |row| row.int(0) as u32).pop()
}

fn tenant_ids(db: &mut Connection) -> Vec<u32> {
    db.rows("SELECT id, name FROM tenant", &[], |row| row.int(0) as u32)
}

/// The lowest id that isn't among these.
fn unused_id(ids: impl Iterator<Item = u32>) -> u32 {
    let used: HashSet<u32> = ids.collect();
    (1..).find(|id| !used.contains(id)).expect("an id")
}

/// The digest of the token in one line of standard input.
fn read_token() -> [u8; 32] {
    let text = io::read_to_string(io::stdin()).expect("a token");
    sha256::digest_of(text.strip_suffix('\n').unwrap_or(&text).as_bytes())
}

fn add_tenant(db: &mut Connection, name: &str) {
    assert!(tenant_id(db, name).is_none(), "a refusal");
    let id = unused_id(tenant_ids(db).into_iter());
    let values = [word(id), Value::Text(name)];
    db.commit(|db| db.run("INSERT INTO tenant (id, name) VALUES (?1, ?2)", &values));
}

fn grant(db: &mut Connection, tenant: &str, digest: &[u8; 32]) {
    let tenant = tenant_id(db, tenant).expect("a tenant");
    assert!(tenant_of_token(db, digest).is_none(), "a refusal");
    let digests = db.rows("SELECT digest, tenant FROM token", &[], |row| row.array::<32>(0));
    assert!(digests.len() < 65_536, "a refusal");
    let values = [Value::Blob(digest), word(tenant)];
    db.commit(|db| db.run("INSERT INTO token (digest, tenant) VALUES (?1, ?2)", &values));
}

/// Whether a tenant had the token.
fn end_token(db: &mut Connection, digest: &[u8; 32]) -> bool {
    let is_held = tenant_of_token(db, digest).is_some();
    if is_held {
        db.commit(|db| {
            db.run("DELETE FROM reader WHERE digest = ?1", &[Value::Blob(digest)]);
            db.run("DELETE FROM token WHERE digest = ?1", &[Value::Blob(digest)]);
        });
    }
    is_held
}

/// Whether the network could stand beside one with these settings.
fn is_apart(network: &Network, tenant: u32, name: &str, pool: &Prefix, host: &str, port: u32) -> bool {
    (network.tenant, network.name.as_str()) != (tenant, name)
        && (network.host.as_str(), network.port) != (host, port)
        && !network.pool.covers(pool)
        && !pool.covers(&network.pool)
}

fn add_network(db: &mut Connection, tenant: &str, name: &str, settings: &[&str]) {
    let ["--pool", pool, "--host", host, "--port", port, "--key", key, "--capacity", capacity] = settings else {
        panic!("settings in another order");
    };
    let tenant = tenant_id(db, tenant).expect("a tenant");
    // `wgr` reads the tenants for a refusal, which names one.
    tenant_ids(db);
    let networks = all_networks(db);
    let pool = Prefix::read(pool).expect("a pool");
    let port = port.parse().expect("a port");
    let capacity = capacity.parse().expect("a capacity");
    let fits = |network: &Network| is_apart(network, tenant, name, &pool, host, port);
    assert!(networks.iter().all(fits) && networks.len() < 65_536, "a refusal");
    let id = unused_id(networks.iter().map(|network| network.id));
    let key = key::key_of(key.as_bytes()).expect("a key");
    let lo = pool.number.to_be_bytes();
    let values = [
        word(id),
        word(tenant),
        Value::Text(name),
        family_value(pool.family),
        Value::Blob(&lo),
        word(pool.length),
        Value::Text(host),
        word(port),
        Value::Blob(&key),
        word(capacity),
    ];
    let sql = "INSERT INTO network (id, tenant, name, family, lo, length, host, port, server, capacity, next) VALUES (?1, ?2, ?3, ?4, ?5, ?6, ?7, ?8, ?9, ?10, 1)";
    db.commit(|db| db.run(sql, &values));
}

fn end_network(db: &mut Connection, tenant: &str, name: &str) {
    let tenant = tenant_id(db, tenant).expect("a tenant");
    let network = [word(network_id(db, tenant, name).expect("a network"))];
    db.commit(|db| {
        db.run("DELETE FROM allowed WHERE network = ?1", &network);
        db.run("DELETE FROM peer WHERE network = ?1", &network);
        db.run("DELETE FROM network WHERE id = ?1", &network);
    });
}

fn main() -> ExitCode {
    let words: Vec<String> = std::env::args().skip(1).collect();
    let words: Vec<&str> = words.iter().map(String::as_str).collect();
    let [order, path, words @ ..] = &words[..] else {
        panic!("usage: register WORD DB ..");
    };
    let mut db = Connection::open(path);
    check::check(&mut db);
    match (*order, words) {
        ("tenant-add", [name]) => add_tenant(&mut db, name),
        ("token-grant", [tenant]) => grant(&mut db, tenant, &read_token()),
        ("token-end", []) => {
            if !end_token(&mut db, &read_token()) {
                eprintln!("wgr: no_such_token");
                return ExitCode::from(2);
            }
        }
        ("network-add", [tenant, name, settings @ ..]) => add_network(&mut db, tenant, name, settings),
        ("network-end", [tenant, name]) => end_network(&mut db, tenant, name),
        _ => panic!("no such order"),
    }
    println!("done");
    ExitCode::SUCCESS
}

//! The bodies of replies: JSON, and configuration files.

use crate::key::write_key;
use crate::network::{Network, Peer, Status};
use crate::prefix::Prefix;
use std::io::Write;
use std::ops::Range;

// Writing to a vector does not fail.
macro_rules! put {
    ($out:expr, $($form:tt)*) => {
        write!($out, $($form)*).expect("a vector")
    };
}

fn put_prefix(prefix: &Prefix, out: &mut Vec<u8>) {
    prefix.write(out).expect("a vector");
}

/// A text of ASCII from the blank to the tilde, as a label is, as a JSON string.
fn put_label(label: &str, out: &mut Vec<u8>) {
    out.push(b'"');
    for byte in label.bytes() {
        if byte == b'"' || byte == b'\\' {
            out.push(b'\\');
        }
        out.push(byte);
    }
    out.push(b'"');
}

fn put_status(status: Option<Status>, out: &mut Vec<u8>) {
    match status {
        None => put!(out, "null"),
        Some(Status { handshake, received, sent }) => {
            put!(out, "{{\"handshake\":{handshake},\"received\":{received},\"sent\":{sent}}}");
        }
    }
}

fn put_peer(peer: &Peer, routes: &[Prefix], out: &mut Vec<u8>) {
    put!(out, "{{\"address\":\"");
    put_prefix(&peer.address, out);
    put!(out, "\",\"end\":{},\"keepalive\":{},\"key\":\"", peer.until, peer.keepalive);
    write_key(&peer.key, out);
    put!(out, "\",\"label\":");
    put_label(&peer.label, out);
    put!(out, ",\"number\":{},\"routes\":[", peer.number);
    for (at, route) in routes.iter().enumerate() {
        put!(out, "{}", if at == 0 { "\"" } else { ",\"" });
        put_prefix(route, out);
        out.push(b'"');
    }
    put!(out, "],\"status\":");
    put_status(peer.status, out);
    out.push(b'}');
}

pub fn peer(peer: &Peer, routes: &[Prefix]) -> Vec<u8> {
    let mut out = Vec::new();
    put_peer(peer, routes, &mut out);
    out
}

pub fn list(network: &Network) -> Vec<u8> {
    let routes = network.routes_by_peer();
    let mut out = b"{\"peers\":[".to_vec();
    for (at, peer) in network.peers.iter().enumerate() {
        if at > 0 {
            out.push(b',');
        }
        put_peer(peer, routes.get(&peer.number).map_or(&[], Vec::as_slice), &mut out);
    }
    out.extend_from_slice(b"]}");
    out
}

fn put_network(network: &Network, out: &mut Vec<u8>) {
    let Network { name, host, port, capacity, .. } = network;
    put!(out, "{{\"capacity\":{capacity},\"endpoint\":\"{host}:{port}\",\"name\":\"{name}\",\"pool\":\"");
    put_prefix(&network.pool, out);
    put!(out, "\",\"server\":\"");
    write_key(&network.server, out);
    put!(out, "\"}}");
}

pub fn networks(networks: &[Network]) -> Vec<u8> {
    let mut out = b"{\"networks\":[".to_vec();
    for (at, network) in networks.iter().enumerate() {
        if at > 0 {
            out.push(b',');
        }
        put_network(network, &mut out);
    }
    out.extend_from_slice(b"]}");
    out
}

pub fn owner(number: u32) -> Vec<u8> {
    format!("{{\"number\":{number}}}").into_bytes()
}

pub fn revoked(number: u32) -> Vec<u8> {
    format!("{{\"revoked\":{number}}}").into_bytes()
}

/// The numbers of the peers that an adoption added, and how many lines found their key held.
pub fn adopted(added: Range<u32>, known: usize) -> Vec<u8> {
    let numbers: Vec<_> = added.map(|number| number.to_string()).collect();
    format!("{{\"added\":[{}],\"known\":{known}}}", numbers.join(",")).into_bytes()
}

/// Why a request is refused, and the number of the peer that it is about.
pub fn error(name: &str, number: Option<u32>) -> Vec<u8> {
    let fact = number.map_or(String::new(), |number| format!(",\"number\":{number}"));
    format!("{{\"error\":\"{name}\"{fact}}}").into_bytes()
}

fn put_section(key: &[u8; 32], out: &mut Vec<u8>) {
    put!(out, "\n[Peer]\nPublicKey = ");
    write_key(key, out);
    out.push(b'\n');
}

fn put_allowed<'a>(first: &Prefix, others: impl IntoIterator<Item = &'a Prefix>, out: &mut Vec<u8>) {
    put!(out, "AllowedIPs = ");
    put_prefix(first, out);
    for prefix in others {
        put!(out, ", ");
        put_prefix(prefix, out);
    }
    out.push(b'\n');
}

fn put_keepalive(peer: &Peer, out: &mut Vec<u8>) {
    if peer.keepalive != 0 {
        put!(out, "PersistentKeepalive = {}\n", peer.keepalive);
    }
}

pub fn server_file(network: &Network, is_quick: bool) -> Vec<u8> {
    let routes = network.routes_by_peer();
    let mut out = b"[Interface]\n".to_vec();
    if is_quick {
        put!(out, "Address = ");
        network.server_address().write_address(&mut out).expect("a vector");
        put!(out, "/{}\n", network.pool.length);
    }
    put!(out, "ListenPort = {}\n", network.port);
    for peer in &network.peers {
        put_section(&peer.key, &mut out);
        put_allowed(&peer.address, routes.get(&peer.number).into_iter().flatten(), &mut out);
        put_keepalive(peer, &mut out);
    }
    out
}

/// The file of a peer, whose network's host is a name.
pub fn peer_file(network: &Network, peer: &Peer, is_quick: bool) -> Vec<u8> {
    let mut out = b"[Interface]\n".to_vec();
    if is_quick {
        put!(out, "Address = ");
        put_prefix(&peer.address, &mut out);
        out.push(b'\n');
    }
    put_section(&network.server, &mut out);
    let others = network.routes.iter().filter(|route| route.1 != peer.number && !network.pool.covers(&route.0));
    put_allowed(&network.pool, others.map(|route| &route.0), &mut out);
    put!(out, "Endpoint = {}:{}\n", network.host, network.port);
    put_keepalive(peer, &mut out);
    out
}

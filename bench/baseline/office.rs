//! What tenants ask: the bytes of a request, and those of its reply.
//!
//! It answers what the benchmarks ask, and ends the program at all else.

use crate::key::key_of;
use crate::network::{is_reader, network_id, networks_of, tenant_of_token, Change, Network, Refusal, Seen, Status, Wanted};
use crate::pages;
use crate::prefix::Prefix;
use crate::rows::{self, Outline};
use crate::sha256;
use crate::sqlite::Connection;
use std::collections::HashMap;

struct Request<'a> {
    method: &'a str,
    path: &'a str,
    token: &'a str,
    body: &'a str,
}

struct Reply {
    status: &'static str,
    kind: &'static str,
    extra: &'static str,
    body: Vec<u8>,
}

/// How many networks stay in memory, and how many servers' files.
const MOST_RECENT: usize = 64;

/// A server's file, and the moments at which it is current: the first, and the first at which it no longer is.
struct ServerFile {
    id: u32,
    quick: bool,
    span: (i64, i64),
    text: Vec<u8>,
}

/// A register, and the networks and servers' files that were last asked of, the latest at the end. Of networks
/// that weren't loaded, the ids of those whose rows were asked last, once each. And what is known of each network
/// without loading it.
pub struct Office {
    db: Connection,
    loaded: Vec<Network>,
    files: Vec<ServerFile>,
    asked_once: Vec<u32>,
    outlines: HashMap<u32, Outline>,
}

/// The reply of a command, and what it changes.
type Outcome = Result<(Reply, Option<Change>), Refusal>;

fn json(body: Vec<u8>) -> Reply {
    Reply { status: "200 OK", kind: "application/json", extra: "", body }
}

fn file(body: Vec<u8>) -> Reply {
    Reply { kind: "text/plain", ..json(body) }
}

fn unknown_token() -> Reply {
    Reply {
        status: "401 Unauthorized",
        extra: "WWW-Authenticate: Bearer\r\n",
        ..json(pages::error("unknown_token", None))
    }
}

fn read_only() -> Reply {
    Reply { status: "403 Forbidden", ..json(pages::error("read_only", None)) }
}

fn not_found(name: &str) -> Reply {
    Reply { status: "404 Not Found", ..json(pages::error(name, None)) }
}

fn refused(why: Refusal) -> Reply {
    match why {
        Refusal::NoSuchPeer => not_found("no_such_peer"),
        Refusal::NoSuchRoute => not_found("no_such_route"),
        Refusal::NobodysAddress => not_found("nobodys_address"),
        Refusal::KeyHeld(number) => {
            Reply { status: "409 Conflict", ..json(pages::error("key_held", Some(number))) }
        }
    }
}

impl Reply {
    fn bytes(&self) -> Vec<u8> {
        let Reply { status, kind, extra, body } = self;
        let length = body.len();
        let head = format!(
            "HTTP/1.1 {status}\r\nContent-Type: {kind}\r\nContent-Length: {length}\r\n{extra}Connection: close\r\n\r\n"
        );
        [head.as_bytes(), body].concat()
    }
}

impl Request<'_> {
    /// The request at the front of the bytes, once all of it is there.
    fn read(message: &[u8]) -> Option<Request<'_>> {
        let end = message.windows(4).position(|bytes| bytes == b"\r\n\r\n")? + 4;
        let mut lines = str::from_utf8(&message[..end]).ok()?.split("\r\n");
        let mut words = lines.next()?.split(' ');
        let (method, path) = (words.next()?, words.next()?);
        let (mut token, mut length) = ("", 0);
        for (name, value) in lines.filter_map(|line| line.split_once(':')) {
            let value = value.trim();
            if name.eq_ignore_ascii_case("authorization") {
                let (scheme, rest) = value.split_once(' ')?;
                token = scheme.eq_ignore_ascii_case("bearer").then(|| rest.trim_start())?;
            } else if name.eq_ignore_ascii_case("content-length") {
                length = value.parse().ok()?;
            }
        }
        let body = str::from_utf8(message.get(end..end + length)?).ok()?;
        Some(Request { method, path, token, body })
    }
}

/// What stands behind this name in a flat JSON object.
fn member<'a>(body: &'a str, name: &str) -> Option<&'a str> {
    let (_, rest) = body.split_once(&format!("\"{name}\""))?;
    rest.trim_start().strip_prefix(':').map(str::trim_start)
}

/// The string of this name, which has no escapes.
fn text<'a>(body: &'a str, name: &str) -> Option<&'a str> {
    let (text, _) = member(body, name)?.strip_prefix('"')?.split_once('"')?;
    Some(text)
}

/// The number of this name.
fn number(body: &str, name: &str) -> Option<i64> {
    member(body, name)?.split(|letter: char| !letter.is_ascii_digit()).next()?.parse().ok()
}

/// A key, or none where the field says so.
fn optional_key(field: &str) -> Option<[u8; 32]> {
    (field != "(none)").then(|| key_of(field.as_bytes()).expect("a key"))
}

fn prefix_of(text: &str) -> Prefix {
    Prefix::read(text).expect("a prefix").masked()
}

fn prefixes_of(field: &str) -> Vec<Prefix> {
    field.split(',').filter(|text| *text != "(none)").map(prefix_of).collect()
}

/// A count, of which more than 63 bits are not kept.
fn count_of(field: &str) -> i64 {
    field.parse::<u128>().expect("a count").min(i64::MAX as u128) as i64
}

fn seen(line: &str) -> Seen {
    let fields: Vec<&str> = line.split('\t').collect();
    let [key, _, _, allowed, handshake, received, sent, keepalive] = fields[..] else {
        panic!("a line of eight fields");
    };
    Seen {
        key: key_of(key.as_bytes()).expect("a key"),
        allowed: prefixes_of(allowed),
        status: Status {
            handshake: count_of(handshake),
            received: count_of(received),
            sent: count_of(sent),
        },
        keepalive: if keepalive == "off" { 0 } else { keepalive.parse().expect("seconds") },
    }
}

/// The interface's key, and its peers.
fn dump_of(text: &str) -> (Option<[u8; 32]>, Vec<Seen>) {
    let mut lines = text.lines();
    let interface = lines.next().expect("the interface's line");
    let key = interface.split('\t').nth(1).expect("a public key");
    (optional_key(key), lines.map(seen).collect())
}

/// A moment at which a lease ends.
fn end_of(number: i64, now: i64) -> i64 {
    assert!(number == 0 || now < number, "a refusal");
    number
}

/// The benchmarks have the register choose each address.
fn expect_no_address(body: &str) {
    assert!(member(body, "address").is_none(), "a named address");
}

fn wanted(body: &str, now: i64) -> Wanted {
    expect_no_address(body);
    Wanted {
        key: text(body, "key").and_then(|text| key_of(text.as_bytes())).expect("a key"),
        label: text(body, "label").unwrap_or("").to_owned(),
        until: end_of(number(body, "end").unwrap_or(0), now),
        keepalive: number(body, "keepalive").unwrap_or(0) as u32,
    }
}

fn done(reply: Reply, change: Change) -> Outcome {
    Ok((reply, Some(change)))
}

/// A change that leaves one peer of its number, whose routes stay.
fn replaced(network: &Network, change: Change) -> Outcome {
    let peer = &change.peers[0];
    done(json(pages::peer(peer, &network.routes_to(peer.number))), change)
}

fn adopt(network: &Network, body: &str) -> Outcome {
    let (server, lines) = dump_of(body);
    let adoption = network.adopt(server, &lines);
    done(json(pages::adopted(adoption.added, adoption.known)), adoption.change)
}

fn lead(network: &Network, number: u32, prefix: Prefix) -> Outcome {
    let change = network.lead(prefix, number)?;
    let mut routes = network.routes_to(number);
    if let Err(place) = routes.binary_search(&prefix) {
        routes.insert(place, prefix);
    }
    done(json(pages::peer(network.peer(number)?, &routes)), change)
}

fn unroute(network: &Network, prefix: Prefix) -> Outcome {
    let change = network.unroute(prefix)?;
    let number = network.route(&prefix)?;
    let mut routes = network.routes_to(number);
    routes.retain(|route| *route != prefix);
    done(json(pages::peer(network.peer(number)?, &routes)), change)
}

fn act(network: &Network, now: i64, request: &Request, rest: &[&str]) -> Outcome {
    let body = request.body;
    let peer = |text: &str| text.parse().expect("a peer's number");
    let prefix = || prefix_of(text(body, "prefix").expect("a prefix"));
    match (request.method, rest) {
        ("GET", ["peers"]) => Ok((json(pages::list(network)), None)),
        ("GET", ["owner", address]) => Ok((json(pages::owner(network.owner(&prefix_of(address))?)), None)),
        ("GET", ["peers", number, "file", form]) => {
            let text = pages::peer_file(network, network.peer(peer(number))?, *form == "quick");
            Ok((file(text), None))
        }
        ("POST", ["peers"]) => replaced(network, network.add(wanted(body, now))?),
        ("POST", ["peers", number, "address"]) => {
            expect_no_address(body);
            replaced(network, network.relocate(peer(number))?)
        }
        ("POST", ["peers", at, "lease"]) => {
            let end = end_of(number(body, "end").expect("an end"), now);
            replaced(network, network.renew(peer(at), end)?)
        }
        ("POST", ["peers", number, "routes"]) => lead(network, peer(number), prefix()),
        ("POST", ["unroute"]) => unroute(network, prefix()),
        ("POST", ["dump"]) => adopt(network, body),
        ("DELETE", ["peers", number]) => {
            let change = network.revoke(peer(number))?;
            done(json(pages::revoked(peer(number))), change)
        }
        _ => panic!("no such path"),
    }
}

/// What a new peer or the owner of an address is answered by the rows of the network of this id.
fn act_on_rows(db: &mut Connection, id: u32, now: i64, outline: Outline, request: &Request, rest: &[&str]) -> Outcome {
    if let ["owner", address] = rest {
        let number = rows::owner(db, id, now, &prefix_of(address))?;
        return Ok((json(pages::owner(number)), None));
    }
    let change = rows::add(db, id, now, outline, wanted(request.body, now))?;
    done(json(pages::peer(&change.peers[0], &[])), change)
}

/// Puts it at the end, in place of the one that was not asked of for longest where there are too many.
fn keep<T>(recent: &mut Vec<T>, latest: T) {
    if recent.len() == MOST_RECENT {
        recent.remove(0);
    }
    recent.push(latest);
}

impl ServerFile {
    fn of(network: &Network, quick: bool, now: i64) -> ServerFile {
        let ends = || network.peers.iter().map(|peer| peer.until).filter(|end| *end != 0);
        let first = ends().filter(|end| *end <= now).max().unwrap_or(0);
        let over = ends().filter(|end| *end > now).min().unwrap_or(i64::MAX);
        ServerFile { id: network.id, quick, span: (first, over), text: pages::server_file(network, quick) }
    }

    fn is_current(&self, id: u32, quick: bool, now: i64) -> bool {
        self.id == id && self.quick == quick && self.span.0 <= now && now < self.span.1
    }
}

impl Office {
    pub fn new(mut db: Connection) -> Office {
        let outlines = rows::outlines(&mut db);
        Office { db, loaded: Vec::new(), files: Vec::new(), asked_once: Vec::new(), outlines }
    }

    /// The network of this id: the one in memory, or else what its rows form.
    fn take(&mut self, id: u32) -> Network {
        match self.loaded.iter().position(|network| network.id == id) {
            Some(place) => self.loaded.remove(place),
            None => Network::load(&mut self.db, id),
        }
    }

    /// The server's file of the network of this id: the one in memory, or else a new one.
    fn server_file(&mut self, id: u32, quick: bool, now: i64) -> Vec<u8> {
        let place = self.files.iter().position(|file| file.is_current(id, quick, now));
        let found = place.map(|place| self.files.remove(place)).unwrap_or_else(|| {
            let network = self.take(id);
            let made = ServerFile::of(&network, quick, now);
            keep(&mut self.loaded, network);
            made
        });
        let text = found.text.clone();
        keep(&mut self.files, found);
        text
    }

    /// Whether the rows of the network of this id are asked, in place of a load: where it isn't in memory, and
    /// was not asked so before. One that comes again is worth a load.
    fn asks_rows(&mut self, id: u32, request: &Request, rest: &[&str]) -> bool {
        let is_directed = matches!((request.method, rest), ("POST", ["peers"]) | ("GET", ["owner", _]));
        if !is_directed || self.loaded.iter().any(|network| network.id == id) {
            return false;
        }
        let before = self.asked_once.iter().position(|asked| *asked == id);
        match before {
            Some(place) => drop(self.asked_once.remove(place)),
            None => keep(&mut self.asked_once, id),
        }
        before.is_none()
    }

    /// What is known of the network of this id; one that was made since the start had no peers.
    fn outline(&self, id: u32) -> Outline {
        self.outlines.get(&id).copied().unwrap_or(Outline { soonest: i64::MAX, floor: 0 })
    }

    /// Notes what a change does to what is known of its network. A new peer took the lowest free address; any other
    /// change may have freed one.
    fn note(&mut self, id: u32, request: &Request, rest: &[&str], change: &Change) {
        let soonest = change.soonest_end().unwrap_or(i64::MAX).min(self.outline(id).soonest);
        let floor = match (request.method, rest) {
            ("POST", ["peers"]) => change.peers[0].address.number,
            _ => 0,
        };
        self.outlines.insert(id, Outline { soonest, floor });
    }

    /// The reply of what was decided on the network of this id; what it changes is committed.
    fn settle(&mut self, id: u32, request: &Request, rest: &[&str], decided: Outcome) -> (Reply, Option<Change>) {
        match decided {
            Ok((reply, Some(change))) => {
                self.files.retain(|file| file.id != id);
                change.commit(&mut self.db, id);
                self.note(id, request, rest, &change);
                (reply, Some(change))
            }
            Ok(read) => read,
            Err(why) => (refused(why), None),
        }
    }

    /// What the command answers on the network of this id; what it changes is committed.
    fn ask(&mut self, id: u32, now: i64, request: &Request, rest: &[&str]) -> Reply {
        if let ("GET", ["server", form]) = (request.method, rest) {
            return file(self.server_file(id, *form == "quick", now));
        }
        if self.asks_rows(id, request, rest) {
            let outline = self.outline(id);
            let decided = act_on_rows(&mut self.db, id, now, outline, request, rest);
            return self.settle(id, request, rest, decided).0;
        }
        let mut network = self.take(id);
        assert!(network.peers.iter().all(|peer| peer.is_live(now)), "a lease that is over");
        let decided = act(&network, now, request, rest);
        let (reply, change) = self.settle(id, request, rest, decided);
        if let Some(change) = change {
            network.apply(change);
        }
        keep(&mut self.loaded, network);
        reply
    }

    fn respond(&mut self, now: i64, request: &Request) -> Reply {
        let digest = sha256::digest_of(request.token.as_bytes());
        let Some(tenant) = tenant_of_token(&mut self.db, &digest) else {
            return unknown_token();
        };
        if request.method != "GET" && is_reader(&mut self.db, &digest) {
            return read_only();
        }
        let parts: Vec<&str> = request.path.split('/').skip(1).collect();
        match &parts[..] {
            ["networks"] => json(pages::networks(&networks_of(&mut self.db, tenant))),
            ["networks", name, rest @ ..] => match network_id(&mut self.db, tenant, name) {
                Some(id) => self.ask(id, now, request, rest),
                None => not_found("no_such_network"),
            },
            _ => panic!("no such path"),
        }
    }

    /// The bytes of the reply to a message, at this moment.
    pub fn answer(&mut self, now: i64, message: &[u8]) -> Vec<u8> {
        self.respond(now, &Request::read(message).expect("a request")).bytes()
    }
}

pub fn is_whole(message: &[u8]) -> bool {
    Request::read(message).is_some()
}

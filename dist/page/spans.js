/** What the addresses of a pool are: spans, each of one kind and of one device at most. */

import { addressesOf } from "./formats.js";
import { readAddress, readPrefix } from "./addresses.js";

/** The kinds of addresses. */
export const KINDS = ["held", "route", "reserved", "free"];
/** A picture shows single addresses up to so many bits, and else so many ranges of one length. */
const MOST_SINGLE = 10;
const STEP = 8;

/** The spans of a pool in order, without a gap: a device's address comes before a route, which comes before none. */
export function spansOf(pool, peers) {
    const single = singles(pool, peers);
    const routes = routesIn(pool, peers);
    const cuts = new Set([pool.from]);
    for (const value of single.keys()) cuts.add(value).add(value + 1n);
    for (const { from, to } of routes) cuts.add(from).add(to + 1n);
    const starts = [...cuts].filter((at) => at <= pool.to).sort((one, other) => (one < other ? -1 : 1));
    const around = [];
    let next = 0;
    return starts.map((from, place) => {
        while (around.length && around.at(-1).to < from) around.pop();
        while (next < routes.length && routes[next].from === from) around.push(routes[next++]);
        const to = (starts[place + 1] ?? pool.to + 1n) - 1n;
        const route = around.at(-1);
        return { from, to, ...(single.get(from) ?? (route ? { kind: "route", peer: route.peer } : { kind: "free" })) };
    });
}

/** The addresses that are a device's, and those that the pool never gives. */
function singles(pool, peers) {
    const found = new Map();
    for (const peer of peers) {
        for (const text of addressesOf(peer)) {
            const { bits, value } = readAddress(text);
            if (bits === pool.bits && value >= pool.from && value <= pool.to) found.set(value, { kind: "held", peer });
        }
    }
    const never = [pool.from, pool.from + 1n, ...(pool.bits === 32 ? [pool.to] : [])];
    never.forEach((value, place) => found.set(value, { kind: "reserved", what: ["network", "server", "broadcast"][place] }));
    return found;
}

/** The routes inside the pool, a wider one before those inside it. */
function routesIn(pool, peers) {
    const found = peers.flatMap((peer) => peer.routes.map((text) => ({ ...readPrefix(text), peer })));
    return found
        .filter((route) => route.bits === pool.bits && route.from >= pool.from && route.to <= pool.to)
        .sort((one, other) => (one.from < other.from ? -1 : one.from > other.from ? 1 : one.length - other.length));
}

/** How many addresses of each kind spans have. */
export function countsOf(spans) {
    const counts = Object.fromEntries(KINDS.map((kind) => [kind, 0n]));
    for (const { from, to, kind } of spans) counts[kind] += to - from + 1n;
    return counts;
}

/** Spans of one kind side by side as one, with how many devices they are of. */
export function joined(spans) {
    const rows = [];
    for (const span of spans) {
        const last = rows.at(-1);
        const isOne = last && last.kind === span.kind && span.kind !== "reserved" && (span.kind === "held" || last.peer === span.peer);
        if (isOne) Object.assign(last, { to: span.to, count: last.count + 1 });
        else rows.push({ ...span, count: 1 });
    }
    return rows;
}

/** How many bits of a block are shown at once: the rest is looked at by opening one of its parts. */
function stepOf({ bits, length }) {
    const left = bits - length;
    if (left <= MOST_SINGLE) return left;
    const odd = left % STEP;
    return odd === 0 ? STEP : odd <= MOST_SINGLE - STEP ? odd + STEP : odd;
}

/** The parts of a block that are shown at once, each with the spans in it. */
export function partsOf(block, spans) {
    const length = block.length + stepOf(block);
    const size = 1n << BigInt(block.bits - length);
    const parts = [];
    let at = spans.findIndex((span) => span.to >= block.from);
    for (let from = block.from; from <= block.to; from += size) {
        const to = from + size - 1n;
        while (spans[at].to < from) at += 1;
        const inside = [];
        for (let next = at; next < spans.length && spans[next].from <= to; next += 1) {
            const span = spans[next];
            inside.push({ ...span, from: span.from > from ? span.from : from, to: span.to < to ? span.to : to });
        }
        parts.push({ bits: block.bits, length, from, to, spans: inside });
    }
    return parts;
}

/** The blocks from the pool down to the smallest one that still shows all these addresses. */
export function wayTo(pool, values) {
    const way = [pool];
    for (;;) {
        const block = way.at(-1);
        const length = block.length + stepOf(block);
        const size = 1n << BigInt(block.bits - length);
        if (length === block.bits || values.length === 0) return way;
        const from = values[0] - (values[0] % size);
        if (!values.every((value) => value >= from && value < from + size)) return way;
        way.push({ bits: block.bits, length, from, to: from + size - 1n });
    }
}

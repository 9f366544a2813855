/** The table of a network's devices, which sorts and filters. */

import { make } from "./elements.js";
import { addressesOf, bytes, distance, endsSoon, lastDay, nameOf, seconds } from "./formats.js";
import { bare, orderOf } from "./addresses.js";
import { say } from "./texts.js";

const DAY = 86_400;
const FOREVER = Number.MAX_SAFE_INTEGER;
const text = new Intl.Collator(undefined, { numeric: true, sensitivity: "base" });
const byNumber = (value) => (one, other) => value(one.peer) - value(other.peer);
const less = (one, other) => (one < other ? -1 : one > other ? 1 : 0);
/** How many rows are drawn at once; the others follow, so that no list keeps its reader waiting. */
const BLOCK = 64;

export const handshake = (peer) => peer.status?.handshake ?? 0;
export const traffic = (peer) => (peer.status ? peer.status.received + peer.status.sent : 0);

/** The columns, each with its order; those of times and traffic begin with the latest and the most. */
const COLUMNS = [
    { name: "label", compare: (one, other) => text.compare(one.name, other.name) },
    { name: "address", compare: (one, other) => less(one.order, other.order) },
    { name: "key", compare: (one, other) => less(one.peer.key, other.peer.key) },
    { name: "end", compare: byNumber((peer) => peer.end || FOREVER) },
    { name: "handshake", compare: byNumber(handshake), falls: true },
    { name: "traffic", compare: byNumber(traffic), falls: true },
];

/** What the second filter chooses. */
const CHOICES = {
    all: () => true,
    soon: (peer, now) => endsSoon(peer, now),
    ends: (peer) => peer.end !== 0,
    endless: (peer) => peer.end === 0,
    seen: (peer, now) => now - handshake(peer) < DAY,
    unseen: (peer, now) => handshake(peer) > 0 && now - handshake(peer) >= 30 * DAY,
    never: (peer) => handshake(peer) === 0,
    used: (peer) => traffic(peer) > 0,
    unused: (peer) => traffic(peer) === 0,
};

/** A device of the table. What only some readers ask for is found out when it is asked, since there may be 4,096. */
class Shown {
    #order = null;
    #searched = null;

    constructor(peer) {
        [this.peer, this.name, this.row] = [peer, nameOf(peer), null];
    }

    /** The number of its address. */
    get order() {
        return (this.#order ??= orderOf(this.peer.address));
    }

    /** What the first filter searches. */
    get searched() {
        const { peer } = this;
        return (this.#searched ??= [this.name, ...addressesOf(peer), ...peer.routes, peer.key].join("\n").toLowerCase());
    }
}

export class DeviceTable {
    constructor(peers, { open, empty }) {
        this.now = seconds();
        this.peers = peers.map((peer) => new Shown(peer));
        this.byRow = new Map();
        this.draft = this.empty();
        this.column = COLUMNS[0];
        this.isTurned = false;
        this.search = make("input", { type: "search", id: "search", placeholder: say("searchHint"), autocomplete: "off", oninput: () => this.show() });
        this.choice = make("select", { id: "choice", onchange: () => this.show() }, Object.keys(CHOICES).map((name) => make("option", { value: name }, say(`choice.${name}`))));
        this.table = make("table", { role: "table", "aria-label": say("devices"), onclick: (event) => this.clicked(event, open) });
        this.count = make("p", { class: "count", role: "status" });
        this.nothing = make("p", { class: "nothing", hidden: true }, say("nothingFound"));
        this.table.append(make("thead", { role: "rowgroup" }, this.head()));
        this.element = peers.length ? this.whole() : empty;
        this.sort(COLUMNS[0]);
    }

    whole() {
        return make("div", { class: "devices" },
            make("div", { class: "filters", role: "search" },
                make("div", {}, make("label", { for: "search" }, say("search")), this.search),
                make("div", {}, make("label", { for: "choice" }, say("choose")), this.choice),
                make("div", { class: "order" }, make("label", { for: "order" }, say("order")), this.orders())),
            make("div", { class: "above" }, this.count, make("p", { class: "hint" }, say("arrows"))),
            this.table,
            this.nothing);
    }

    head() {
        this.heads = COLUMNS.map((column) => make("th", { role: "columnheader", scope: "col" },
            make("button", { type: "button", onclick: () => this.turn(column) }, say(`column.${column.name}`))));
        return make("tr", { role: "row" }, this.heads);
    }

    /** In place of the columns' heads, where the page is narrow. */
    orders() {
        const choose = (event) => this.sort(COLUMNS[event.target.selectedIndex]);
        this.order = make("select", { id: "order", onchange: choose }, COLUMNS.map(({ name }) => make("option", {}, say(`column.${name}`))));
        return this.order;
    }

    /** A row of which each device gets a copy. */
    empty() {
        const cells = COLUMNS.map(({ name }) => make("td", { role: "cell", "data-name": say(`column.${name}`) }));
        cells[0] = make("th", { scope: "row", role: "rowheader" }, make("button", { type: "button", class: "link" }));
        cells[2].append(make("code", { class: "key" }));
        return make("tr", { role: "row" }, cells);
    }

    /** The row of a device, which is made once. */
    row(it) {
        if (it.row) return it.row;
        const { peer } = it;
        it.row = this.draft.cloneNode(true);
        const [label, address, key, end, seen, moved] = it.row.children;
        label.firstChild.textContent = it.name;
        address.append(...addressesOf(peer).map((text) => make("code", {}, text)));
        if (peer.routes.length) address.append(make("small", {}, say("routesCount", { count: peer.routes.length })));
        key.firstChild.textContent = peer.key;
        this.fillEnd(end, peer);
        this.fill(seen, handshake(peer) ? distance(handshake(peer), this.now) : say("never"), handshake(peer) ? "" : "faint");
        this.fillTraffic(moved, peer);
        this.byRow.set(it.row, peer);
        return it.row;
    }

    fill(cell, text, kind = "") {
        cell.append(make("span", { class: kind || null }, text));
    }

    fillEnd(cell, peer) {
        if (peer.end === 0) this.fill(cell, say("noEnd"), "faint");
        else if (endsSoon(peer, this.now)) this.fill(cell, say("ends", { when: distance(peer.end, this.now) }), "soon");
        else this.fill(cell, say("until", { day: lastDay(peer.end) }));
    }

    fillTraffic(cell, peer) {
        if (!traffic(peer)) return this.fill(cell, "–", "faint");
        this.fill(cell, say("sent", { size: bytes(peer.status.sent) }));
        this.fill(cell, say("received", { size: bytes(peer.status.received) }));
    }

    clicked(event, open) {
        const row = event.target.closest("tbody tr");
        // Who marks a text to copy it doesn't open the device.
        if (row && String(getSelection()) === "") open(this.byRow.get(row));
    }

    turn(column) {
        this.sort(column, column === this.column && !this.isTurned);
    }

    sort(column, isTurned = false) {
        [this.column, this.isTurned] = [column, isTurned];
        const falls = Boolean(column.falls) !== isTurned;
        this.peers.sort((one, other) => (falls ? -1 : 1) * column.compare(one, other) || one.peer.number - other.peer.number);
        this.heads?.forEach((head, place) => {
            if (COLUMNS[place] === column) head.setAttribute("aria-sort", falls ? "descending" : "ascending");
            else head.removeAttribute("aria-sort");
        });
        if (this.order) this.order.selectedIndex = COLUMNS.indexOf(column);
        this.show();
    }

    /** The filters and the order of the table that this one follows. */
    takeFrom(other) {
        this.search.value = other.search.value;
        this.choice.value = other.choice.value;
        this.sort(other.column, other.isTurned);
    }

    show() {
        const words = this.search.value.toLowerCase().split(/\s+/).map(bare).filter(Boolean);
        const chosen = CHOICES[this.choice.value];
        const shown = this.peers.filter((it) => chosen(it.peer, this.now) && words.every((word) => it.searched.includes(word)));
        this.table.replaceChildren(this.table.tHead);
        this.drawn = shown;
        this.draw(shown, 0);
        this.nothing.hidden = shown.length > 0;
        const isWhole = shown.length === this.peers.length;
        this.count.textContent = isWhole ? say("devicesCount", { count: shown.length }) : say("devicesShown", { count: shown.length, all: this.peers.length });
    }

    /** Draws a block of rows, and then the others, as long as these are the ones to show. */
    draw(shown, from) {
        const rows = shown.slice(from, from + BLOCK).map((it) => this.row(it));
        const block = make("tbody", { role: "rowgroup" }, rows);
        block.style.setProperty("--rows", rows.length);
        this.table.append(block);
        if (from + BLOCK < shown.length) setTimeout(() => this.drawn === shown && this.draw(shown, from + BLOCK));
    }
}

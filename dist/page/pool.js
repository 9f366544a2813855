/** The pool as a picture: which addresses are held, free or in routes; with the same as a table. */

import { button, make } from "./elements.js";
import { KINDS, countsOf, joined, partsOf, spansOf, wayTo } from "./spans.js";
import { nameOf, number } from "./formats.js";
import { readPrefix, writeAddress, writePrefix } from "./addresses.js";
import { say } from "./texts.js";

const MOST_ROWS = 500;
const ARROWS = { ArrowLeft: -1, ArrowRight: 1 };

/** A share of a whole in per cent; what is there at all is seen. */
function share(part, whole) {
    if (part === 0n) return 0;
    return Math.max(Number((part * 10_000n) / whole) / 100, 1);
}

export class Pool {
    constructor(session, network, { open, add }) {
        [this.session, this.open, this.add] = [session, open, add];
        this.pool = readPrefix(network.pool);
        this.spans = spansOf(this.pool, session.peers);
        this.way = wayTo(this.pool, this.first());
        this.told = make("p", { class: "told" }, say("pool.point"));
        this.grid = make("div", { class: "grid", role: "group", "aria-label": say("pool.picture"), onkeydown: (event) => this.step(event) });
        this.crumbs = make("nav", { class: "crumbs", "aria-label": say("pool.blocks") });
        this.scale = make("p", { class: "hint" });
        this.element = make("div", { class: "pool" }, this.whole(), this.crumbs, this.scale, this.told, this.grid, this.table());
        this.draw();
    }

    /** What the picture shows at first: all held addresses, and the lowest free one. */
    first() {
        const held = this.spans.filter((span) => span.kind === "held");
        const free = this.spans.find((span) => span.kind === "free");
        return [...held.map((span) => span.from), ...(free ? [free.from] : [])];
    }

    text(value) {
        return writeAddress({ bits: this.pool.bits, value });
    }

    /** The whole pool as one bar, in proportion, with its legend. */
    whole() {
        const counts = countsOf(this.spans);
        const size = this.pool.to - this.pool.from + 1n;
        const bar = make("div", { class: "bar", "aria-hidden": "true" }, KINDS.map((kind) => {
            const part = make("span", { class: kind });
            part.style.flexGrow = counts[kind] === 0n ? 0 : Math.max(Number((counts[kind] * 1000n) / size), 6);
            return part;
        }));
        const legend = make("ul", { class: "legend" }, KINDS.map((kind) => make("li", { class: kind }, say(`kind.${kind}`), " ", make("b", {}, number(counts[kind])))));
        return make("div", {}, make("p", {}, say("pool.free", { free: number(counts.free), all: number(size) })), bar, legend);
    }

    draw() {
        const block = this.way.at(-1);
        this.parts = partsOf(block, this.spans);
        const isSingle = this.parts[0].length === block.bits;
        this.scale.textContent = isSingle ? say("pool.single") : say("pool.ranges", { count: number(this.parts[0].to - this.parts[0].from + 1n) });
        this.grid.replaceChildren(...this.parts.map((part) => (isSingle ? this.single(part) : this.range(part))));
        this.grid.classList.toggle("ranges", !isSingle);
        this.grid.firstElementChild.tabIndex = 0;
        this.crumbs.hidden = this.way.length === 1;
        this.crumbs.replaceChildren(make("ol", {}, this.way.map((crumb, place) => make("li", {}, this.crumb(crumb, place)))));
    }

    crumb(block, place) {
        const isLast = place === this.way.length - 1;
        return button(writePrefix(block), () => this.go(place), { class: "quiet small", "aria-current": isLast && "true" });
    }

    go(place) {
        this.way.length = place + 1;
        this.draw();
        this.crumbs.querySelector("[aria-current]").focus();
    }

    cell(kind, name, act) {
        const tell = () => { this.told.textContent = name; };
        return make("button", { type: "button", class: kind, tabindex: "-1", "aria-label": name, "aria-disabled": act ? null : "true", onclick: act, onfocus: tell, onmouseenter: tell });
    }

    /** A click on an address opens its device, or offers it to a new one. */
    single({ from, spans: [span] }) {
        const address = this.text(from);
        const name = span.peer && nameOf(span.peer);
        const offers = this.session.isFull && ["free", "route"].includes(span.kind);
        const said = span.kind === "reserved" ? say(`reserved.${span.what}`) : say(`address.${span.kind}`, { name });
        const act = span.kind === "held" ? () => this.open(span.peer) : offers ? () => this.add(address) : null;
        return this.cell(span.kind, [address, said, offers && say("address.offer")].filter(Boolean).join(" – "), act);
    }

    /** A range is filled as far as its addresses are held or in routes. */
    range(part) {
        const size = part.to - part.from + 1n;
        const counts = countsOf(part.spans);
        const devices = new Set(part.spans.filter((span) => span.kind === "held").map((span) => span.peer));
        const names = devices.size === 1 ? nameOf([...devices][0]) : say("devicesCount", { count: devices.size });
        const said = say("range", { range: writePrefix(part), free: number(counts.free), names });
        const made = this.cell("range", said, () => this.enter(part));
        made.style.setProperty("--held", `${share(counts.held, size)}%`);
        made.style.setProperty("--route", `${share(counts.route, size)}%`);
        return made;
    }

    enter({ bits, length, from, to }) {
        this.way.push({ bits, length, from, to });
        this.draw();
        this.grid.firstElementChild.focus();
    }

    /** Arrows lead from one address to the next, or to the next line. */
    step(event) {
        const cells = [...this.grid.children];
        const here = cells.indexOf(document.activeElement);
        const below = cells.findIndex((cell) => cell.offsetTop > cells[0].offsetTop);
        const line = below < 0 ? cells.length : below;
        const steps = { ...ARROWS, ArrowUp: -line, ArrowDown: line, Home: -here, End: cells.length - 1 - here };
        const next = cells[here + steps[event.key]];
        if (here < 0 || !next) return;
        event.preventDefault();
        cells[here].tabIndex = -1;
        next.tabIndex = 0;
        next.focus();
    }

    /** The same in words, which is made once it is opened. */
    table() {
        const made = make("details", { ontoggle: () => made.open && made.children.length === 1 && made.append(this.rows()) }, make("summary", {}, say("pool.table")));
        return made;
    }

    rows() {
        const rows = joined(this.spans);
        const cells = rows.slice(0, MOST_ROWS).map((row) => make("tr", {},
            make("td", {}, make("code", {}, row.from === row.to ? this.text(row.from) : `${this.text(row.from)} – ${this.text(row.to)}`)),
            make("td", {}, number(row.to - row.from + 1n)),
            make("td", {}, this.what(row))));
        const head = make("tr", {}, ["pool.addresses", "pool.count", "pool.what"].map((key) => make("th", { scope: "col" }, say(key))));
        const rest = rows.length > MOST_ROWS && make("p", { class: "hint" }, say("pool.more", { count: rows.length - MOST_ROWS }));
        return make("div", {}, make("table", { class: "plain", "aria-label": say("pool.picture") }, make("thead", {}, head), make("tbody", {}, cells)), rest);
    }

    what(row) {
        if (row.kind === "reserved") return say(`reserved.${row.what}`);
        if (row.kind === "held" && row.count > 1) return say("devicesCount", { count: row.count });
        return say(`address.${row.kind}`, { name: row.peer && nameOf(row.peer) });
    }
}

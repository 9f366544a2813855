/** One device: what the register knows of it, and its changes. */

import { Field, Wrong, button, copied, download, facts, form, make, openDialog, tell } from "./elements.js";
import { addressesOf, bytes, dayOf, distance, endOfDay, moment, nameOf, seconds, zone } from "./formats.js";
import { handshake } from "./devices.js";
import { fileName } from "./keys.js";
import { readAddress, readPrefix, writePrefix } from "./addresses.js";
import { say } from "./texts.js";

export function leaseField(end = 0) {
    const input = make("input", { type: "date", min: dayOf(seconds() + 1), max: "9999-12-31", value: dayOf(end) });
    return new Field("end", say("field.end"), input, say("field.end.hint", { zone }));
}

/** The end that the field names. A date that the browser can't read is refused, since an empty one means no end. */
export function leaseOf(field) {
    if (field.input.validity.badInput) throw new Wrong("end", say("malformed.end"));
    return endOfDay(field.value);
}

export function addressField(hint = say("field.address.hint")) {
    return new Field("address", say("field.address"), make("input", { type: "text", autocomplete: "off", spellcheck: "false", inputmode: "text" }), hint);
}

/** The member `address` of a request, which an empty field leaves out. */
export function addressOf(field) {
    if (!field.value) return {};
    if (!readAddress(field.value.replace(/\/(32|128)$/, ""))) throw new Wrong("address", say("malformed.address"));
    return { address: field.value };
}

/** The dialog of a device. After each change it shows the device as it is then, or closes where it is gone. */
export class Device {
    constructor(session, network, peer) {
        [this.session, this.network, this.peer] = [session, network, peer];
        this.path = `networks/${network.name}/peers/${peer.number}`;
        this.dialog = openDialog(nameOf(peer), this.parts());
    }

    parts() {
        const folded = this.session.isFull ? [this.lease(), this.move(), this.routes(), this.revoke()] : [this.onlyRoutes()];
        return [this.known(), this.files(), ...folded.map(([name, ...inside]) => make("details", { "data-part": name }, make("summary", {}, say(`part.${name}`)), ...inside))];
    }

    known() {
        const { peer } = this;
        const now = seconds();
        const seen = handshake(peer);
        return facts(
            [say("column.address"), addressesOf(peer).map((address) => copied(address, say("column.address")))],
            [say("column.key"), copied(peer.key, say("column.key"))],
            [say("column.end"), peer.end ? say("momentIn", { moment: moment(peer.end), distance: distance(peer.end, now) }) : say("noEnd")],
            [say("column.handshake"), seen ? say("momentIn", { moment: moment(seen), distance: distance(seen, now) }) : say(peer.status ? "neverSeen" : "notReported")],
            [say("column.traffic"), peer.status && say("bothWays", { received: bytes(peer.status.received), sent: bytes(peer.status.sent) })],
            [say("keepalive"), peer.keepalive ? say("everySeconds", { count: peer.keepalive }) : say("noKeepalive")],
            [say("number"), String(peer.number)]);
    }

    files() {
        const save = async () => {
            const text = await this.session.service.ask("GET", `${this.path}/file/quick`);
            download(fileName(this.peer.label, this.network.name), text);
        };
        return make("div", { class: "aside" },
            make("p", { class: "hint" }, say("fileWithoutKey")),
            button(say("downloadFile"), () => save().catch((error) => tell(error.message)), { class: "small" }));
    }

    /** Makes a change, and shows the device as it is then, also where no answer says whether the change is done. */
    async change(path, body, words) {
        try {
            const text = await this.session.service.change(path, body);
            await this.again(words(text));
        } catch (error) {
            if (!error.mayBeDone) throw error;
            // Where the list can't be had either, the first error says more.
            await this.again(error.message).catch(() => { throw error; });
        }
    }

    /** Shows the device as the list has it by now. */
    async again(words) {
        await this.session.load(this.network.name);
        this.peer = this.session.peers.find((peer) => peer.number === this.peer.number) ?? null;
        if (this.peer) this.dialog.show(nameOf(this.peer), ...this.parts());
        else this.dialog.close();
        tell(words);
    }

    lease() {
        const field = leaseField(this.peer.end);
        const send = () => this.change(`${this.path}/lease`, { end: leaseOf(field) }, () => say("leaseIsSet"));
        return ["lease", make("p", { class: "hint" }, say("lease.hint")), form({ fields: [field], submit: say("setLease"), send })];
    }

    move() {
        const field = addressField();
        const send = () => this.change(`${this.path}/address`, addressOf(field), (text) => say("isMoved", { address: addressesOf(JSON.parse(text))[0] }));
        return ["move", make("p", { class: "hint" }, say("move.hint")), form({ fields: [field], submit: say("move"), send })];
    }

    routes() {
        const field = new Field("prefix", say("field.prefix"), make("input", { type: "text", autocomplete: "off", spellcheck: "false" }), say("field.prefix.hint"));
        let warned = "";
        const send = async () => {
            const prefix = readPrefix(field.value);
            if (!prefix) throw new Wrong("prefix", say("malformed.prefix"));
            const holder = this.session.peers.find((peer) => peer.number !== this.peer.number && peer.routes.includes(writePrefix(prefix)));
            if (holder && warned !== field.value) {
                warned = field.value;
                throw new Wrong("prefix", say("leadsTo", { name: nameOf(holder) }));
            }
            await this.change(`${this.path}/routes`, { prefix: field.value }, () => say("routeIsAdded"));
        };
        return ["routes", make("p", { class: "hint" }, say("routes.hint")), this.listed((prefix) => this.unroute(prefix)), form({ fields: [field], submit: say("addRoute"), send })];
    }

    onlyRoutes() {
        return ["routes", make("p", { class: "hint" }, say("routes.hint")), this.listed(null)];
    }

    listed(remove) {
        if (!this.peer.routes.length) return make("p", { class: "nothing" }, say("noRoutes"));
        return make("ul", { class: "routes" }, this.peer.routes.map((prefix) => make("li", {}, make("code", {}, prefix),
            remove && button(say("remove"), () => remove(prefix), { class: "small", "aria-label": say("removeRoute", { prefix }) }))));
    }

    async unroute(prefix) {
        try {
            await this.change(`networks/${this.network.name}/unroute`, { prefix }, () => say("routeIsRemoved"));
        } catch (error) {
            tell(error.message);
        }
    }

    /** The first click says what it cuts off, the second one does it. */
    revoke() {
        const { peer } = this;
        const name = nameOf(peer);
        const send = async () => {
            await this.session.service.ask("DELETE", this.path, undefined, (refused) => refused.refusal === "no_such_peer");
            await this.again(say("isRevoked", { name }));
        };
        const seen = handshake(peer) && say("revoke.seen", { when: distance(handshake(peer), seconds()) });
        const cut = make("ul", {}, [say("revoke.address", { address: addressesOf(peer).join(", ") }), peer.routes.length && say("revoke.routes", { routes: peer.routes.join(", ") }), seen]
            .filter(Boolean).map((line) => make("li", {}, line)));
        const sure = form({ fields: [], parts: [make("p", {}, say("revoke.cuts", { name })), cut], submit: say("revokeNow", { name }), send, attributes: { class: "danger" } });
        sure.hidden = true;
        const first = button(say("revoke"), () => {
            sure.hidden = false;
            first.hidden = true;
            sure.querySelector("button").focus();
        }, { class: "danger" });
        return ["revoke", make("p", { class: "hint" }, say("revoke.hint")), first, sure];
    }
}

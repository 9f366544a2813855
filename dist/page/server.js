/** The WireGuard server of a network: its files, and the peers of a running interface, which the register takes over. */

import { Field, Wrong, button, copied, download, facts, form, make, tell } from "./elements.js";
import { say } from "./texts.js";

const FORMS = ["quick", "wg"];
/** How many fields the line of an interface has in a dump, and that of a peer; and which of them is a secret. */
const [INTERFACE, PEER] = [{ length: 4, secret: 0 }, { length: 8, secret: 1 }];
const NONE = "(none)";
const COMMAND = "wg show wg0 dump";

export class ServerPart {
    constructor(session, network, changed) {
        [this.session, this.network, this.changed] = [session, network, changed];
        this.element = make("div", { class: "server" }, this.known(), this.files(), session.isFull && this.adoption());
    }

    known() {
        const { pool, endpoint, server, capacity } = this.network;
        return make("section", {}, make("h2", {}, say("network")), facts([say("endpoint"), copied(endpoint, say("endpoint"))], [say("serverKey"), copied(server, say("serverKey"))],
            [say("pool"), make("code", {}, pool)], [say("capacity"), say("devicesCount", { count: capacity })]));
    }

    files() {
        const save = async (name) => download(`${this.network.name}-${name}.conf`, await this.session.service.ask("GET", `networks/${this.network.name}/server/${name}`));
        const buttons = FORMS.map((name) => button(say(`server.${name}`), () => save(name).catch((error) => tell(error.message))));
        return make("section", {}, make("h2", {}, say("serverFiles")), make("p", {}, say("serverFiles.hint")), make("div", { class: "actions" }, buttons));
    }

    adoption() {
        this.dump = new Field("dump", say("field.dump"), make("textarea", { rows: "6", spellcheck: "false", autocomplete: "off", wrap: "off", oninput: () => this.forget() }), say("field.dump.hint"));
        const file = make("input", { type: "file", id: "dump-file", onchange: () => file.files[0] && this.take(file.files[0]) });
        this.plan = make("div", { class: "plan", role: "status" });
        this.refused = make("pre", { class: "refused", hidden: true, tabindex: "0", "aria-label": say("refusedLine") });
        this.isSure = false;
        const made = make("section", { class: "drop" },
            make("h2", {}, say("adopt")), make("p", {}, say("adopt.hint")), make("p", {}, say("adopt.how"), " ", make("code", {}, COMMAND)),
            make("p", {}, make("label", { for: "dump-file" }, say("dumpFile")), " ", file),
            form({ fields: [this.dump], parts: [this.dump.element, this.refused, this.plan], submit: say("adoptNow"), send: () => this.adopt() }));
        made.addEventListener("dragover", (event) => { event.preventDefault(); made.classList.add("over"); });
        made.addEventListener("dragleave", () => made.classList.remove("over"));
        made.addEventListener("drop", (event) => {
            event.preventDefault();
            made.classList.remove("over");
            if (event.dataTransfer.files[0]) this.take(event.dataTransfer.files[0]);
        });
        return made;
    }

    async take(file) {
        this.forget();
        this.dump.clear();
        this.dump.input.value = (await this.lines(await file.text())).join("\n");
    }

    /** The lines of a dump. Secrets don't go further than this; blanks of a terminal are the tabs that they were. */
    lines(text) {
        const whole = text.replace(/\r/g, "").replace(/\n+$/, "").split("\n");
        return whole.map((line, place) => {
            const fields = line.trim().split(/\s+/);
            const { length, secret } = place === 0 ? INTERFACE : PEER;
            if (fields.length === length) fields[secret] = NONE;
            return fields.join("\t");
        });
    }

    forget() {
        this.isSure = false;
        this.refused.hidden = true;
        this.plan.replaceChildren();
    }

    /** A line that has another number of fields isn't sent: where its secret is can't be known. */
    checked() {
        const lines = this.lines(this.dump.input.value);
        if (!this.dump.value) throw new Wrong("dump", say("malformed.dump"));
        lines.forEach((line, place) => {
            const { length } = place === 0 ? INTERFACE : PEER;
            if (line.split("\t").length !== length) throw this.wrong(lines, place + 1, say(place === 0 ? "malformed.interface" : "malformed.peer", { line: String(place + 1) }));
        });
        this.dump.input.value = lines.join("\n");
        return lines;
    }

    /** The error of a line, which is shown, and marked in the text. */
    wrong(lines, line, why) {
        this.forget();
        this.refused.textContent = `${line}  ${lines[line - 1]?.replaceAll("\t", "  ") ?? ""}`;
        this.refused.hidden = false;
        const from = lines.slice(0, line - 1).reduce((sum, it) => sum + it.length + 1, 0);
        this.dump.input.value = lines.join("\n");
        this.dump.input.setSelectionRange(from, from + (lines[line - 1]?.length ?? 0));
        return new Wrong("dump", why);
    }

    /** The first click says what would be added, since a revoked device that the interface has comes back; the second one adds it. */
    async adopt() {
        const lines = this.checked();
        if (!this.isSure) {
            this.foresee(lines, await this.session.peersOf(this.network.name));
            this.isSure = true;
            return;
        }
        const text = await this.send(lines);
        const { added, known } = JSON.parse(text);
        await this.session.load(this.network.name);
        this.changed();
        tell(say("isAdopted", { added: say("devicesCount", { count: added.length }), known: say("devicesCount", { count: known }) }));
    }

    async send(lines) {
        try {
            return await this.session.service.change(`networks/${this.network.name}/dump`, `${lines.join("\n")}\n`);
        } catch (error) {
            this.isSure = false;
            // The key of another server is in the interface's line.
            const line = error.members?.line ?? (error.refusal === "wrong_server" ? 1 : null);
            if (line) throw this.wrong(lines, line, say("lineRefused", { line: String(line), why: error.message }));
            throw error;
        }
    }

    foresee(lines, peers) {
        const known = new Set(peers.map((peer) => peer.key));
        const unknown = lines.slice(1).filter((line) => !known.has(line.split("\t")[0]));
        const shown = unknown.slice(0, 20).map((line) => make("li", {}, make("code", {}, line.split("\t")[3]), " ", make("code", { class: "key" }, line.split("\t")[0])));
        this.plan.replaceChildren(
            make("p", {}, say("wouldAdd", { count: unknown.length }), " ", say("wouldKnow", { count: lines.length - 1 - unknown.length })),
            make("ul", {}, shown, unknown.length > shown.length && make("li", {}, say("andMore", { count: unknown.length - shown.length }))),
            make("p", { class: "warning" }, say("adoptAgain")));
    }
}

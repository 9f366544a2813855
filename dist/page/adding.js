/** A new device: its key is made here, and its configuration is shown once. */

import { Field, Wrong, button, copyButton, download, form, make, openDialog } from "./elements.js";
import { addressField, addressOf, leaseField, leaseOf } from "./device.js";
import { canMakeKeys, codeOf, complete, fileName, isKey, makeKeys } from "./keys.js";
import { readAddress } from "./addresses.js";
import { say } from "./texts.js";

const MOST_KEEPALIVE = 65_535;
const COMMAND = "wg genkey | tee private.key | wg pubkey";

export class Adding {
    /** `address` is one that the reader has chosen already. */
    static async open(session, network, address = "") {
        return new Adding(session, network, address, await canMakeKeys());
    }

    constructor(session, network, address, canMake) {
        [this.session, this.network, this.canMake] = [session, network, canMake];
        // The keys stay the same as long as the dialog is open, so that a request may be made again.
        this.keys = null;
        this.isKept = true;
        this.isWarned = false;
        this.warning = make("p", { class: "warning", role: "alert" });
        this.makeFields(address);
        this.dialog = openDialog(say("addDevice"), [this.asked(Boolean(address))], { mayClose: () => this.mayClose(), onClose: () => this.forget(), class: "adding" });
        this.guard = (event) => this.isKept || event.preventDefault();
        addEventListener("beforeunload", this.guard);
        this.label.input.focus();
    }

    makeFields(address) {
        const plain = { autocomplete: "off", spellcheck: "false" };
        this.label = new Field("label", say("field.label"), make("input", { type: "text", maxlength: "64", ...plain }), say("field.label.hint"));
        this.end = leaseField();
        this.key = new Field("key", say("field.key"), make("input", { type: "text", ...plain }), [say("field.key.hint"), " ", make("code", {}, COMMAND)]);
        this.own = new Field("own", say("field.own"), make("input", { type: "checkbox", onchange: () => this.chooseKey() }), say("field.own.hint"));
        this.keepalive = new Field("keepalive", say("field.keepalive"), make("input", { type: "text", inputmode: "numeric", value: "25", ...plain }), say("field.keepalive.hint"));
        this.address = addressField();
        this.address.input.value = address;
        this.everything = new Field("everything", say("field.everything"), make("input", { type: "checkbox" }), say("field.everything.hint"));
        this.dns = new Field("dns", say("field.dns"), make("input", { type: "text", ...plain }), say("field.dns.hint"));
        this.own.input.checked = !this.canMake;
        this.chooseKey();
    }

    chooseKey() {
        this.key.element.hidden = !this.own.input.checked;
    }

    asked(isOpen) {
        const more = make("details", { open: isOpen }, make("summary", {}, say("moreChoices")), this.address.element, this.keepalive.element, this.everything.element, this.dns.element);
        const keys = this.canMake ? [this.own.element, this.key.element] : [make("p", { class: "warning" }, say("noKeysHere")), this.key.element];
        const fields = [this.label, this.end, this.key, this.address, this.keepalive, this.dns];
        return form({ fields, parts: [this.label.element, this.end.element, ...keys, more], submit: say("addDevice"), send: () => this.add() });
    }

    /** What is asked of the service; a field that it would refuse for its form is refused here. */
    wanted() {
        // Telephones type these quotation marks by themselves.
        this.label.input.value = this.label.value.replace(/[‘’]/g, "'").replace(/[“”]/g, '"');
        if (!/^[ -~]{0,64}$/.test(this.label.value)) throw new Wrong("label", say("malformed.label"));
        const end = leaseOf(this.end);
        if (this.own.input.checked && !isKey(this.key.value)) throw new Wrong("key", say("malformed.key"));
        if (!/^\d{1,5}$/.test(this.keepalive.value || "0") || Number(this.keepalive.value) > MOST_KEEPALIVE) throw new Wrong("keepalive", say("malformed.keepalive"));
        if (this.dns.value && !this.dns.value.split(",").every((entry) => readAddress(entry.trim()))) throw new Wrong("dns", say("malformed.dns"));
        return { label: this.label.value, end, keepalive: Number(this.keepalive.value), ...addressOf(this.address) };
    }

    async add() {
        const wanted = this.wanted();
        if (!this.own.input.checked) this.keys ??= await makeKeys();
        const [privateKey, key] = this.own.input.checked ? [null, this.key.value] : [this.keys.privateKey, this.keys.publicKey];
        const number = await this.post({ ...wanted, key }, privateKey !== null);
        // From here on the device is there, and its private key is nowhere else.
        this.isKept = privateKey === null;
        await this.showFile(number, privateKey);
        await this.session.load(this.network.name);
    }

    /** The number of the peer that has the key from now on, also where an earlier request was done without an answer. */
    async post(wanted, isOurs) {
        let held = null;
        const isDone = (refused) => refused.refusal === "key_held" && (held = refused.members.number);
        try {
            const text = await this.session.service.ask("POST", `networks/${this.network.name}/peers`, wanted, isDone);
            return text === null ? held : JSON.parse(text).number;
        } catch (error) {
            // Nobody else can have a key that was made here.
            if (isOurs && error.refusal === "key_held") return error.members.number;
            throw error;
        }
    }

    async showFile(number, privateKey) {
        const path = `networks/${this.network.name}/peers/${number}/file/quick`;
        const show = async () => {
            const file = await this.session.service.ask("GET", path);
            const text = complete(file, { privateKey, dns: this.dns.value.split(",").map((entry) => entry.trim()).join(", "), everything: this.everything.input.checked });
            this.show(text, privateKey);
        };
        try {
            await show();
        } catch (error) {
            const again = form({ fields: [], parts: [make("p", { class: "warning" }, say("addedWithoutFile"), " ", error.message)], submit: say("tryAgain"), send: show });
            this.dialog.show(say("isAdded", { name: this.label.value || say("unnamed", { number: String(number) }) }), again, this.warning);
        }
    }

    show(text, privateKey) {
        const name = fileName(this.label.value, this.network.name);
        const kept = () => this.keep();
        const code = privateKey && codeOf(text);
        code?.setAttribute("aria-label", say("codeIs"));
        const shown = make("div", { class: "result" },
            make("div", {},
                make("p", {}, say(privateKey ? "once" : "onceWithoutKey")),
                make("ol", {}, ["install", privateKey ? "import" : "importOwn", "wait"].map((step) => make("li", {}, say(`step.${step}`, { name })))),
                make("pre", { tabindex: "0", "aria-label": say("configuration") }, text),
                make("div", { class: "actions" },
                    button(say("download", { name }), () => { download(name, text); kept(); }, { class: "primary" }),
                    copyButton(text, say("copy"), {}, kept))),
            privateKey && make("div", { class: "scan" }, code ?? make("p", { class: "hint" }, say("noCode")), code && make("p", { class: "hint" }, say("scan")),
                code && button(say("isScanned"), () => { kept(); this.dialog.close(); }, { class: "small" })));
        const done = make("div", { class: "actions" }, button(say("done"), () => this.mayClose() && this.dialog.close()));
        this.dialog.show(say("isReady", { name: this.label.value || this.network.name }), shown, this.warning, done);
    }

    keep() {
        this.isKept = true;
        this.warning.textContent = "";
    }

    /** The first try to close what isn't kept yet says so; the second one closes it. */
    mayClose() {
        if (this.isKept || this.isWarned) return true;
        this.isWarned = true;
        this.warning.textContent = say("notKept");
        return false;
    }

    forget() {
        removeEventListener("beforeunload", this.guard);
        this.keys = null;
    }
}

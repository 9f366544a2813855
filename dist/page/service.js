/** Requests to the register, on this page's own origin, with the token; and what each refusal means. */

import { has, say } from "./texts.js";

/** Milliseconds before a request is made again. */
const PAUSES = [500, 2000, 4000];
const AGAIN = new Set([429, 502, 503, 504]);
const LONGEST_PAUSE = 10_000;
const TIMEOUT = 150_000;
/** A change that no token can make: whatever network and peer there are, a lease doesn't end in 1970. */
const IMPOSSIBLE = ["POST", "networks/right-of-this-token/peers/1000000/lease", { end: 1 }];
/** The field of a form at which a refusal is said. */
const PLACES = {
    key_held: "key", server_key: "key", outside_pool: "address", address_held: "address", pool_full: "address",
    lease_over: "end", is_address: "prefix", routes_full: "prefix", no_such_route: "prefix",
};

/** A refusal of the service, or of the proxy before it. */
class Refused extends Error {
    constructor(status, members) {
        const name = members.error ?? "unknown";
        super(say(has(`refused.${name}`) ? `refused.${name}` : "refused.unknown", { status, name, ...members }));
        this.status = status;
        this.refusal = name;
        this.members = members;
        this.field = name === "bad_field" ? members.field : PLACES[name];
        if (name === "bad_field" && has(`malformed.${members.field}`)) this.message = say(`malformed.${members.field}`);
    }
}

/** No answer came, however often it was asked; or it may not be asked again. */
class Unanswered extends Error {
    constructor(words = "unanswered") {
        super(say(words));
        this.field = null;
        this.mayBeDone = words === "mayBeDone";
    }
}

export class Service {
    #token;

    /** `waits` is called with the words to show while a request waits to be made again, and then with none. */
    constructor(token, { waits, ended }) {
        this.#token = token;
        this.waits = waits;
        this.ended = ended;
        this.base = new URL("../v1/", document.baseURI);
    }

    async #once(method, path, body) {
        const text = typeof body === "string" ? body : body && JSON.stringify(body);
        const reply = await fetch(new URL(path, this.base), {
            method,
            body: text,
            headers: { Authorization: `Bearer ${this.#token}` },
            cache: "no-store",
            credentials: "omit",
            redirect: "error",
            signal: AbortSignal.timeout(TIMEOUT),
        });
        return { status: reply.status, text: await reply.text(), after: Number(reply.headers.get("Retry-After")) * 1000 };
    }

    /** The reply to a request, which is made again where none came, if it may; `unanswered` says that an earlier one may be done. */
    async #reply(method, path, body, mayRepeat) {
        let unanswered = false;
        // What was said of an earlier change has had its time.
        if (method !== "GET") this.waits("");
        for (const pause of [...PAUSES, null]) {
            const reply = await this.#once(method, path, body).catch(() => null);
            if (pause !== PAUSES[0]) this.waits("");
            if (reply && !AGAIN.has(reply.status)) return { ...reply, unanswered };
            // A request that was refused for its number never reached the service.
            unanswered ||= reply?.status !== 429;
            if (unanswered && !mayRepeat) throw new Unanswered("mayBeDone");
            if (pause === null) throw reply ? refusalOf(reply) : new Unanswered();
            const wait = Math.max(pause, Math.min(reply?.after || 0, LONGEST_PAUSE));
            this.waits(say(!reply ? "waits.network" : reply.status === 429 ? "waits.busy" : "waits.down", { count: Math.ceil(wait / 1000) }));
            await new Promise((go) => setTimeout(go, wait));
        }
    }

    /** The text of the reply. `done(refusal)` says whether a refusal shows that a request without an answer was done. */
    async ask(method, path, body, done = () => false, mayRepeat = true) {
        const reply = await this.#reply(method, path, body, mayRepeat);
        if (reply.status === 200) return reply.text;
        const refused = refusalOf(reply);
        if (reply.unanswered && done(refused)) return null;
        if (refused.status === 401) this.ended();
        throw refused;
    }

    async read(path) {
        return JSON.parse(await this.ask("GET", path));
    }

    /**
     * A change that isn't made again where no answer came: it would undo what another client has changed meanwhile
     * (docs/API.md, "When no reply comes").
     */
    change(path, body) {
        return this.ask("POST", path, body, undefined, false);
    }

    /** Whether the token may change something: asked by a change that can't be made. */
    async isFull() {
        try {
            await this.ask(...IMPOSSIBLE);
        } catch (error) {
            if (error.refusal === "read_only") return false;
            if (error.refusal !== "no_such_network") throw error;
        }
        return true;
    }
}

function refusalOf(reply) {
    try {
        return new Refused(reply.status, JSON.parse(reply.text));
    } catch {
        return new Refused(reply.status, {});
    }
}

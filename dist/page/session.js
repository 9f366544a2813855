/** A reader who is signed in: what the token may, its networks, and the devices of the one that is looked at. */

import { Service } from "./service.js";

/** Where a token is kept as long as the tab is open, if the reader chooses so. Nothing else is ever kept. */
const KEPT = "token";

export function keptToken() {
    return sessionStorage.getItem(KEPT);
}

export function forgetToken() {
    sessionStorage.removeItem(KEPT);
}

export class Session {
    /** Signs in. A token that nobody has is refused, as by any request. */
    static async begin(token, isToKeep, reports) {
        const service = new Service(token, reports);
        const isFull = await service.isFull();
        const session = new Session(service, isFull, await networksOf(service));
        if (isToKeep) sessionStorage.setItem(KEPT, token);
        return session;
    }

    constructor(service, isFull, networks) {
        [this.service, this.isFull, this.networks] = [service, isFull, networks];
        this.peers = [];
        this.changes = new EventTarget();
    }

    async reload() {
        this.networks = await networksOf(this.service);
    }

    async peersOf(name) {
        return (await this.service.read(`networks/${name}/peers`)).peers;
    }

    /** Looks at the devices of a network as they are now; who listens to `changes` hears of it. */
    async load(name) {
        this.peers = await this.peersOf(name);
        this.loaded = new Date();
        this.changes.dispatchEvent(new Event("load"));
    }
}

async function networksOf(service) {
    return (await service.read("networks")).networks;
}

/** The page: signing in, and one view for each place behind `#`. */

import { Adding } from "./adding.js";
import { Device } from "./device.js";
import { DeviceTable } from "./devices.js";
import { Field, Wrong, button, form, make, tell } from "./elements.js";
import { Pool } from "./pool.js";
import { ServerPart } from "./server.js";
import { Session, forgetToken, keptToken } from "./session.js";
import { language, say } from "./texts.js";

const main = document.querySelector("main");
const clock = new Intl.DateTimeFormat(undefined, { timeStyle: "medium" });
const TABS = ["devices", "addresses", "server"];
let session = null;
/** What the last view gave up when another one came. */
let left = new AbortController();

function reports() {
    return { waits: tell, ended: () => signOut(say("ended")) };
}

/** Shows a view, and leads keyboard and screen reader to its heading. */
function show(...parts) {
    main.replaceChildren(...parts);
    const heading = main.querySelector("h1");
    heading.tabIndex = -1;
    heading.focus();
    document.title = `${heading.textContent} – ${say("title")}`;
}

function showSignIn(message = "") {
    document.body.classList.add("outside");
    const token = new Field("token", say("field.token"), make("input", { type: "password", autocomplete: "off", spellcheck: "false" }), say("field.token.hint"));
    const keep = new Field("keep", say("field.keep"), make("input", { type: "checkbox" }), say("field.keep.hint"));
    const send = async () => {
        if (!/^[!-~]{1,128}$/.test(token.value)) throw new Wrong("token", say("malformed.token"));
        try {
            await enter(token.value, keep.input.checked);
        } catch (error) {
            if (error.status === 401) throw new Wrong("token", say("unknownToken"));
            throw error;
        }
    };
    const asked = form({ fields: [token, keep], submit: say("signIn"), send });
    const about = make("section", { class: "about" }, make("h2", {}, say("about")), ["keys", "token", "kept"].map((key) => make("p", {}, say(`about.${key}`))));
    show(make("div", { class: "sign-in" }, make("h1", {}, say("signInTo")), message && make("p", { class: "warning", role: "alert" }, message), asked, about));
    token.input.focus();
}

async function enter(token, isToKeep) {
    // While it is found out what the token may, a refusal is said at the field.
    const { waits, ended } = reports();
    const begun = await Session.begin(token, isToKeep, { waits, ended: () => session && ended() });
    session = begun;
    document.body.classList.remove("outside");
    document.querySelector("#right").hidden = session.isFull;
    route();
}

function signOut(message) {
    session = null;
    forgetToken();
    for (const dialog of document.querySelectorAll("dialog")) dialog.close();
    tell("");
    showSignIn(message);
}

function route() {
    if (!session) return;
    left.abort();
    left = new AbortController();
    // Whoever goes back is asked as by Escape: a private key that isn't kept yet stays on the screen.
    for (const dialog of document.querySelectorAll("dialog")) {
        if (dialog.dispatchEvent(new Event("cancel", { cancelable: true }))) dialog.close();
    }
    const [name, tab = TABS[0]] = location.hash.replace(/^#\/?/, "").split("/");
    const network = session.networks.find((it) => it.name === name);
    if (network && TABS.includes(tab)) showNetwork(network, tab);
    else if (session.networks.length === 1) location.replace(`#/${session.networks[0].name}`);
    else showNetworks();
}

function showNetworks() {
    if (!session.networks.length) {
        show(make("h1", {}, say("networks")), make("div", { class: "empty" }, make("h2", {}, say("noNetworks")), make("p", {}, say("noNetworks.hint"))));
        return;
    }
    const cards = session.networks.map((network) => make("li", {}, make("a", { href: `#/${network.name}`, class: "card" },
        make("strong", {}, network.name), make("code", {}, network.pool), make("span", {}, network.endpoint))));
    const list = make("ul", { class: "cards" }, cards);
    const find = () => cards.forEach((card) => { card.hidden = !card.textContent.toLowerCase().includes(search.value.toLowerCase()); });
    const search = make("input", { type: "search", id: "network", autocomplete: "off", oninput: find });
    const filter = cards.length > 8 && make("div", { class: "filters" }, make("div", {}, make("label", { for: "network" }, say("search")), search));
    show(make("h1", {}, say("networks")), make("p", { class: "lead" }, say("networks.hint")), ...[filter].filter(Boolean), list);
}

async function showNetwork(network, tab) {
    const content = make("div", { class: "content", "aria-busy": "true" }, make("p", { class: "loading" }, say("loading")));
    const asOf = make("span", { class: "hint" });
    const links = TABS.map((name) => make("li", {}, make("a", { href: `#/${network.name}/${name}`, "aria-current": name === tab && "page" }, say(`tab.${name}`))));
    const back = session.networks.length > 1 && make("a", { href: "#/", class: "back" }, say("allNetworks"));
    const add = session.isFull && button(say("addDevice"), () => Adding.open(session, network), { class: "primary" });
    show(...[back].filter(Boolean),
        make("div", { class: "heading" }, make("div", {}, make("h1", {}, network.name), make("p", { class: "lead" }, make("code", {}, network.pool), " · ", network.endpoint)), add),
        make("div", { class: "between" },
            make("nav", { class: "tabs", "aria-label": say("parts") }, make("ul", {}, links)),
            make("div", { class: "fresh" }, asOf, button(say("refresh"), () => { tell(""); load(); }, { class: "quiet small" }))),
        content);
    const load = () => loadInto(content, network);
    const draw = () => {
        // What a reader has begun to enter beside the server's files stays.
        if (tab !== "server" || content.hasAttribute("aria-busy")) content.replaceChildren(views[tab](network));
        content.removeAttribute("aria-busy");
        asOf.textContent = say("asOf", { time: clock.format(session.loaded) });
    };
    session.changes.addEventListener("load", draw, { signal: left.signal });
    await load();
}

/** Asks for the devices; where none come, the view says so and offers to ask again. */
async function loadInto(content, network) {
    try {
        await session.load(network.name);
    } catch (error) {
        if (!session) return;
        content.removeAttribute("aria-busy");
        content.replaceChildren(make("div", { class: "empty", role: "alert" }, make("h2", {}, say("notLoaded")), make("p", {}, error.message),
            button(say("tryAgain"), () => loadInto(content, network), { class: "primary" })));
    }
}

const openDevice = (network) => (peer) => new Device(session, network, peer);

/** A filter that is set stays as it is when the list is loaded again. */
function devices(network) {
    const add = session.isFull && button(say("addFirst"), () => Adding.open(session, network), { class: "primary" });
    const empty = make("div", { class: "empty" }, make("h2", {}, say("noDevices")), make("p", {}, say(session.isFull ? "noDevices.hint" : "noDevices.reader")), add);
    const before = main.querySelector(".devices")?.table;
    const table = new DeviceTable(session.peers, { open: openDevice(network), empty });
    table.element.table = table;
    if (before) table.takeFrom(before);
    return table.element;
}

const views = {
    devices,
    addresses: (network) => new Pool(session, network, { open: openDevice(network), add: (address) => Adding.open(session, network, address) }).element,
    server: (network) => new ServerPart(session, network, () => { location.hash = `#/${network.name}`; }).element,
};

function start() {
    document.documentElement.lang = language;
    for (const place of document.querySelectorAll("[data-text]")) place.textContent = say(place.dataset.text);
    document.querySelector("#sign-out").addEventListener("click", () => signOut(""));
    document.querySelector(".skip").addEventListener("click", (event) => {
        // What is behind # says which view it is.
        event.preventDefault();
        main.focus();
    });
    addEventListener("hashchange", route);
    // A file that misses its place must not take the place of the page.
    for (const name of ["dragover", "drop"]) addEventListener(name, (event) => event.preventDefault());
    const token = keptToken();
    if (token) enter(token, true).catch((error) => signOut(error.status === 401 ? say("ended") : error.message));
    else showSignIn();
}

start();

/** Elements of the document, fields and forms. Nothing here reads a text as HTML. */

import { say } from "./texts.js";

/** An element. What begins with `on` listens to an event; an attribute that is true has no value, false or null is none. */
export function make(name, attributes = {}, ...children) {
    const made = document.createElement(name);
    for (const [key, value] of Object.entries(attributes)) {
        if (key.startsWith("on")) made.addEventListener(key.slice(2), value);
        else if (value !== false && value != null) made.setAttribute(key, value === true ? "" : value);
    }
    made.append(...children.flat().filter((child) => child != null && child !== false));
    return made;
}

export function button(text, act, attributes = {}) {
    return make("button", { type: "button", onclick: act, ...attributes }, text);
}

/** A list of terms and what each is; a pair without a value is left out. */
export function facts(...pairs) {
    const known = pairs.filter(([, value]) => value != null && value !== false);
    return make("dl", { class: "facts" }, known.map(([term, value]) => make("div", {}, make("dt", {}, term), make("dd", {}, value))));
}

/** A text of a machine, such as a key, that a click copies. */
export function copied(text, name) {
    return make("span", { class: "copied" }, make("code", {}, text), copyButton(text, say("copy"), { class: "quiet small", "aria-label": say("copyOf", { name }) }));
}

export function copyButton(text, words, attributes = {}, then = () => {}) {
    const copy = async () => {
        await navigator.clipboard.writeText(text);
        made.textContent = say("copiedNow");
        tell(say("copiedNow"));
        then();
    };
    const made = button(words, copy, attributes);
    return made;
}

/** Gives the reader a file that was made here. */
export function download(name, text) {
    const place = URL.createObjectURL(new Blob([text], { type: "text/plain" }));
    make("a", { href: place, download: name }).click();
    URL.revokeObjectURL(place);
}

/** Says something in the open dialog or on the page, also to a screen reader; nothing takes it away. */
export function tell(text) {
    const places = document.querySelectorAll("dialog[open] [role=status].notice, body > [role=status].notice");
    const own = document.querySelector("dialog[open] [role=status].notice");
    for (const place of places) place.textContent = !own || place === own ? text : "";
}

let fields = 0;

/** An input with its label, a hint, and room for why it was refused. */
export class Field {
    constructor(name, label, input, hint) {
        this.name = name;
        this.input = input;
        input.id = `field-${(fields += 1)}`;
        input.name = name;
        const [hinted, refused] = [`${input.id}-hint`, `${input.id}-error`];
        input.setAttribute("aria-describedby", hint ? `${hinted} ${refused}` : refused);
        this.error = make("p", { class: "error", id: refused });
        const named = make("label", { for: input.id }, label);
        const below = hint && make("p", { class: "hint", id: hinted }, hint);
        const parts = input.type === "checkbox" ? [make("div", { class: "choice" }, input, named), below] : [named, below, input];
        this.element = make("div", { class: "field" }, parts, this.error);
    }

    get value() {
        return this.input.value.trim();
    }

    refuse(why) {
        this.error.textContent = why;
        this.input.setAttribute("aria-invalid", "true");
        // A field that is folded away can't have the focus.
        this.input.closest("details")?.setAttribute("open", "");
        this.input.focus();
    }

    clear() {
        this.error.textContent = "";
        this.input.removeAttribute("aria-invalid");
    }
}

/** What a field refuses before the service is asked. */
export class Wrong extends Error {
    constructor(field, why) {
        super(why);
        this.field = field;
    }
}

/** A form that says what is refused at the field, or else above its button. `send` may throw a refusal. */
export function form({ fields: own, parts = own.map((field) => field.element), submit, send, attributes = {} }) {
    const alert = make("p", { class: "error", role: "alert" });
    const sender = make("button", { type: "submit", class: "primary", ...attributes }, submit);
    const made = make("form", { novalidate: true }, parts, alert, make("div", { class: "actions" }, sender));
    made.addEventListener("submit", async (event) => {
        event.preventDefault();
        if (sender.getAttribute("aria-disabled")) return;
        alert.textContent = "";
        for (const field of own) field.clear();
        // A disabled button would lose the focus.
        sender.setAttribute("aria-disabled", "true");
        try {
            await send();
        } catch (error) {
            place(error, own, alert);
        } finally {
            sender.removeAttribute("aria-disabled");
        }
    });
    return made;
}

function place(error, own, alert) {
    const field = own.find((it) => it.name === error.field);
    const why = error.message;
    if (field) field.refuse(why);
    else alert.textContent = why;
    // What the page itself does wrong is seen in the browser's console.
    if (!("field" in error)) throw error;
}

/** A dialog with a heading; `close` is asked whether it may close. Its element is gone once it is closed. */
export function openDialog(heading, parts, { mayClose = () => true, onClose = () => {}, class: kind = "" } = {}) {
    const title = make("h2", { id: `dialog-${(fields += 1)}`, tabindex: "-1" }, heading);
    const closer = button("×", () => mayClose() && made.close(), { class: "quiet close", "aria-label": say("close") });
    const body = make("div", { class: "body" }, parts);
    const made = make("dialog", { "aria-labelledby": title.id, class: kind }, make("header", {}, title, closer), make("p", { class: "notice", role: "status" }), body);
    made.addEventListener("cancel", (event) => mayClose() || event.preventDefault());
    made.addEventListener("close", () => {
        made.remove();
        onClose();
        // What had the focus before may be gone by now.
        if (document.activeElement === document.body) document.querySelector("main").focus();
    });
    tell("");
    document.body.append(made);
    made.showModal();
    return {
        element: made,
        close: () => made.close(),
        show: (name, ...shown) => {
            title.textContent = name;
            body.replaceChildren(...shown);
            body.scrollTop = 0;
            title.focus();
        },
    };
}

/** Numbers, times and names, in the format and the time zone of the reader's browser. */

import { language, say } from "./texts.js";
import { bare } from "./addresses.js";

const DAY = 86_400;
/** A lease that ends within so many days stands out. */
const SOON = 7 * DAY;
/** The last second that a date of the browser can be. */
const LAST = 8_640_000_000_000;
const UNITS = [["year", 365 * DAY], ["month", 30 * DAY], ["day", DAY], ["hour", 3600], ["minute", 60]];
const SIZES = ["byte", "kilobyte", "megabyte", "gigabyte", "terabyte", "petabyte"];

const numbers = new Intl.NumberFormat();
const dates = new Intl.DateTimeFormat(undefined, { dateStyle: "medium", timeStyle: "short" });
const days = new Intl.DateTimeFormat(undefined, { dateStyle: "medium" });
const relative = new Intl.RelativeTimeFormat(language, { numeric: "always" });
const sizes = SIZES.map((unit) => new Intl.NumberFormat(undefined, { style: "unit", unit, unitDisplay: unit === "byte" ? "long" : "short", maximumFractionDigits: 1 }));

export const zone = Intl.DateTimeFormat().resolvedOptions().timeZone;

export function seconds() {
    return Math.floor(Date.now() / 1000);
}

export function number(value) {
    return numbers.format(value);
}

export function moment(second) {
    return second > LAST ? say("farAway") : dates.format(second * 1000);
}

/** The last day of a lease, on which it still runs. */
export function lastDay(end) {
    return end > LAST ? say("farAway") : days.format((end - 1) * 1000);
}

/** How long ago, or in how long: in the largest unit of which there is a whole one. */
export function distance(second, now) {
    const far = second - now;
    const unit = UNITS.find(([, length]) => Math.abs(far) >= length);
    if (!unit) return say(far > 0 ? "inAMoment" : "justNow");
    return Math.abs(far) > LAST ? say("farAway") : relative.format(Math.trunc(far / unit[1]), unit[0]);
}

export function bytes(count) {
    const size = Math.min(Math.floor(Math.log10(Math.max(count, 1)) / 3), SIZES.length - 1);
    return sizes[size].format(count / 1000 ** size);
}

export function endsSoon(peer, now) {
    return peer.end !== 0 && peer.end - now <= SOON;
}

/** The end of a lease: that of the day that was named, in the reader's time zone; 0 for none. */
export function endOfDay(text) {
    if (!text) return 0;
    const [year, month, day] = text.split("-").map(Number);
    return Math.floor(new Date(year, month - 1, day + 1).getTime() / 1000);
}

/** The last day of a lease, as a field for dates has it. */
export function dayOf(end) {
    if (end === 0 || end > LAST) return "";
    const last = new Date((end - 1) * 1000);
    const two = (value) => String(value).padStart(2, "0");
    return `${String(last.getFullYear()).padStart(4, "0")}-${two(last.getMonth() + 1)}-${two(last.getDate())}`;
}

export function nameOf(peer) {
    return peer.label || say("unnamed", { number: String(peer.number) });
}

/** The addresses of a peer: its own, and its second one where the network has two pools. */
export function addressesOf(peer) {
    return [peer.address, peer.second].filter(Boolean).map(bare);
}

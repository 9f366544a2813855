/** Addresses and prefixes of IPv4 and IPv6, as numbers and as texts. */

/** The bits and the number of an address, or null where the text is none. */
export function readAddress(text) {
    const value = text.includes(":") ? readLong(text) : readShort(text);
    return value === null ? null : { bits: text.includes(":") ? 128 : 32, value };
}

function readShort(text) {
    const parts = text.split(".");
    if (parts.length !== 4 || !parts.every((part) => /^(0|[1-9]\d{0,2})$/.test(part) && Number(part) < 256)) return null;
    return parts.reduce((value, part) => value * 256n + BigInt(part), 0n);
}

function readLong(text) {
    const halves = text.split("::").map((half) => (half ? half.split(":") : []));
    const groups = halves.flat();
    const isShort = halves.length === 2;
    if (halves.length > 2 || !groups.every((group) => /^[0-9a-f]{1,4}$/i.test(group))) return null;
    if (isShort ? groups.length > 7 : groups.length !== 8) return null;
    const zeros = Array(8 - groups.length).fill("0");
    const whole = isShort ? [...halves[0], ...zeros, ...halves[1]] : groups;
    return whole.reduce((value, group) => value * 65536n + BigInt(`0x${group}`), 0n);
}

/** The text of an address; of IPv6 as RFC 5952 has it. */
export function writeAddress({ bits, value }) {
    const width = bits === 32 ? 8n : 16n;
    const parts = [];
    for (let at = BigInt(bits) - width; at >= 0n; at -= width) parts.push((value >> at) & ((1n << width) - 1n));
    return bits === 32 ? parts.join(".") : shorten(parts.map((part) => part.toString(16)));
}

/** The longest run of two or more groups of zeros, the first of several, is written as `::`. */
function shorten(groups) {
    let [start, length] = [0, 1];
    for (let from = 0; from < 8; from += 1) {
        const run = groups.slice(from).findIndex((group) => group !== "0");
        const here = run < 0 ? 8 - from : run;
        if (here > length) [start, length] = [from, here];
    }
    if (length < 2) return groups.join(":");
    return `${groups.slice(0, start).join(":")}::${groups.slice(start + length).join(":")}`;
}

/** A prefix, by its first and last number; null where the text is none. An address alone has its full length. */
export function readPrefix(text) {
    const [first, length, ...more] = text.split("/");
    const address = readAddress(first);
    if (!address || more.length) return null;
    const size = length === undefined ? address.bits : /^\d{1,3}$/.test(length) ? Number(length) : NaN;
    return size <= address.bits ? prefixOf(address, size) : null;
}

function prefixOf({ bits, value }, length) {
    const rest = BigInt(bits - length);
    const from = (value >> rest) << rest;
    return { bits, length, from, to: from + (1n << rest) - 1n };
}

export function writePrefix({ bits, length, from }) {
    return `${writeAddress({ bits, value: from })}/${length}`;
}

/** The address without the length that the service writes behind it. */
export function bare(text) {
    return text.split("/")[0];
}

/** A number by which addresses of both families are sorted. */
export function orderOf(text) {
    const { bits, value } = readAddress(bare(text));
    return bits === 32 ? value : value + (1n << 64n);
}

/** Key pairs, which are made in the browser, and the configuration that a private key completes. */

/** Whether this browser makes keys of X25519, which WireGuard's are (RFC 7748). */
export async function canMakeKeys() {
    return makeKeys().then(() => true, () => false);
}

/** A new key pair, as the texts that WireGuard has. */
export async function makeKeys() {
    const pair = await crypto.subtle.generateKey({ name: "X25519" }, true, ["deriveBits"]);
    // The last 32 bytes of PKCS #8 are the key (RFC 8410, section 7).
    const secret = new Uint8Array(await crypto.subtle.exportKey("pkcs8", pair.privateKey)).slice(-32);
    // Bits that the computation ignores, as `wg genkey` sets them, so that every program prints the same text.
    secret[0] &= 248;
    secret[31] = (secret[31] & 127) | 64;
    const known = new Uint8Array(await crypto.subtle.exportKey("raw", pair.publicKey));
    return { privateKey: textOf(secret), publicKey: textOf(known) };
}

function textOf(bytes) {
    return btoa(String.fromCharCode(...bytes));
}

/** Whether a text is the base64 of 32 bytes. */
export function isKey(text) {
    return /^[A-Za-z0-9+/]{42}[AEIMQUYcgkosw048]=$/.test(text);
}

/** The service's file with what only this device knows. */
export function complete(file, { privateKey, dns, everything }) {
    const own = [privateKey && `PrivateKey = ${privateKey}`, dns && `DNS = ${dns}`].filter(Boolean);
    const text = file.replace("[Interface]\n", ["[Interface]", ...own, ""].join("\n"));
    return everything ? text.replace(/^AllowedIPs = .*$/m, "AllowedIPs = 0.0.0.0/0, ::/0") : text;
}

/** The name of a file, from which WireGuard's programs take that of the tunnel: at most 15 such characters. */
export function fileName(label, network) {
    const name = (label || network).replace(/[^A-Za-z0-9_=+.-]+/g, "-").replace(/^[-.]+/, "").slice(0, 15).replace(/[-.]+$/, "");
    return `${name || "wireguard"}.conf`;
}

/** A text as a QR code, or null where it is too long for one, or the library isn't installed. */
export function codeOf(text) {
    try {
        const code = globalThis.qrcode(0, "L");
        code.addData(text, "Byte");
        code.make();
        return drawn(code);
    } catch {
        return null;
    }
}

/** Black on white with a margin of four, whatever the colours of the page: cameras read no other. */
function drawn(code) {
    const size = code.getModuleCount();
    let path = "";
    for (let row = 0; row < size; row += 1) {
        for (let column = 0; column < size; column += 1) {
            if (code.isDark(row, column)) path += `M${column + 4},${row + 4}h1v1h-1z`;
        }
    }
    const picture = svg("svg", { viewBox: `0 0 ${size + 8} ${size + 8}`, class: "code", role: "img", "shape-rendering": "crispEdges" });
    picture.append(svg("rect", { width: size + 8, height: size + 8, fill: "#fff" }), svg("path", { d: path, fill: "#000" }));
    return picture;
}

function svg(name, attributes) {
    const made = document.createElementNS("http://www.w3.org/2000/svg", name);
    for (const [key, value] of Object.entries(attributes)) made.setAttribute(key, value);
    return made;
}

// Texts in the address of the page and in the browser's own store.

const KEY = "edd";

async function through(bytes, stream) {
    const piped = new Blob([bytes]).stream().pipeThrough(stream);
    return new Uint8Array(await new Response(piped).arrayBuffer());
}

/** The texts behind the sign # of an address, or null where there are none that can be read. */
export async function fromAddress(hash) {
    if (hash.length < 2) {
        return null;
    }
    try {
        const letters = hash.slice(1).replace(/-/g, "+").replace(/_/g, "/");
        const bytes = Uint8Array.from(atob(letters), (it) => it.charCodeAt(0));
        return texts(JSON.parse(new TextDecoder().decode(await through(bytes, new DecompressionStream("deflate-raw")))));
    } catch {
        return null;
    }
}

export async function toAddress(kept) {
    const bytes = await through(new TextEncoder().encode(JSON.stringify(kept)), new CompressionStream("deflate-raw"));
    let letters = "";
    bytes.forEach((it) => { letters += String.fromCharCode(it); });
    return `#${btoa(letters).replace(/\+/g, "-").replace(/\//g, "_").replace(/=+$/, "")}`;
}

export function fromStore() {
    try {
        return texts(JSON.parse(localStorage.getItem(KEY)));
    } catch {
        return null;
    }
}

export function save(kept) {
    try {
        localStorage.setItem(KEY, JSON.stringify(kept));
    } catch {
        // A text that is too long for the store is not kept.
    }
}

function texts(kept) {
    const text = (it) => (typeof it === "string" ? it : "");
    return kept ? { source: text(kept.source), device: text(kept.device), name: text(kept.name) } : null;
}

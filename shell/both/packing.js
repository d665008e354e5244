/** Bytes packed by gzip and written in base64, and back: as pages carry them. */

/** so many bytes at once are handed to a call as its words */
const PIECE = 0x8000;

/**
 * @param {string} text base64
 * @returns {Promise<Uint8Array>}
 */
export async function unpacked(text) {
    const packed = Uint8Array.from(atob(text), (it) => it.charCodeAt(0));
    const stream = new Blob([packed]).stream().pipeThrough(new DecompressionStream("gzip"));
    return new Uint8Array(await new Response(stream).arrayBuffer());
}

/**
 * @param {Uint8Array} bytes
 * @returns {Promise<string>} base64
 */
export async function packed(bytes) {
    const stream = new Blob([bytes]).stream().pipeThrough(new CompressionStream("gzip"));
    const made = new Uint8Array(await new Response(stream).arrayBuffer());
    let text = "";
    for (let at = 0; at < made.length; at += PIECE) {
        text += String.fromCharCode(...made.subarray(at, at + PIECE));
    }
    return btoa(text);
}

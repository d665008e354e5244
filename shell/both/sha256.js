/**
 * SHA-256 (FIPS 180-4), for pages that a browser doesn't trust: it has none for those that come over plain HTTP, or in a frame of a page
 * that was opened as a file.
 */

/** @param {number} power @param {number} value @returns {number} the first 32 bits of the fractional part of a root */
const fraction = (power, value) => Math.floor((value ** power % 1) * 2 ** 32);

/** @returns {number[]} the first 64 primes */
function primes() {
    const found = [2];
    for (let next = 3; found.length < 64; next += 2) {
        if (found.every((it) => next % it)) found.push(next);
    }
    return found;
}

const ROUNDS = Uint32Array.from(primes(), (it) => fraction(1 / 3, it)), BEGIN = primes().slice(0, 8).map((it) => fraction(1 / 2, it));
const BLOCK = 64;

/** @type {(word: number, by: number) => number} */
const turned = (word, by) => word >>> by | word << 32 - by;

/**
 * Takes a block into the sum.
 * @param {Uint32Array} sum eight words
 * @param {DataView} data @param {number} from where the block's 64 bytes begin
 * @param {Uint32Array} words room for 64 words
 */
function take(sum, data, from, words) {
    for (let at = 0; at < 16; at++) words[at] = data.getUint32(from + 4 * at);
    for (let at = 16; at < 64; at++) {
        const near = words[at - 2], far = words[at - 15];
        words[at] = words[at - 16] + words[at - 7] + (turned(near, 17) ^ turned(near, 19) ^ near >>> 10) + (turned(far, 7) ^ turned(far, 18) ^ far >>> 3);
    }
    let [a, b, c, d, e, f, g, h] = sum;
    for (let at = 0; at < 64; at++) {
        const one = h + (turned(e, 6) ^ turned(e, 11) ^ turned(e, 25)) + (e & f ^ ~e & g) + ROUNDS[at] + words[at] | 0;
        const other = (turned(a, 2) ^ turned(a, 13) ^ turned(a, 22)) + (a & b ^ a & c ^ b & c) | 0;
        [h, g, f, e, d, c, b, a] = [g, f, e, d + one | 0, c, b, a, one + other | 0];
    }
    [a, b, c, d, e, f, g, h].forEach((word, at) => { sum[at] += word; });
}

/**
 * @param {Uint8Array} bytes
 * @returns {Uint8Array} the 32 bytes of their SHA-256
 */
export function sumOf(bytes) {
    const sum = Uint32Array.from(BEGIN), words = new Uint32Array(64), whole = bytes.length - bytes.length % BLOCK, rest = bytes.length - whole;
    const data = new DataView(bytes.buffer, bytes.byteOffset, bytes.length), end = new DataView(new ArrayBuffer(rest < 56 ? BLOCK : 2 * BLOCK));
    new Uint8Array(end.buffer).set([...bytes.subarray(whole), 128]);
    end.setBigUint64(end.byteLength - 8, BigInt(bytes.length) * 8n);
    for (let at = 0; at < whole; at += BLOCK) take(sum, data, at, words);
    for (let at = 0; at < end.byteLength; at += BLOCK) take(sum, end, at, words);
    const found = new DataView(new ArrayBuffer(32));
    sum.forEach((word, at) => found.setUint32(4 * at, word));
    return new Uint8Array(found.buffer);
}

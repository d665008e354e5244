/**
 * Files in one archive, of the form ZIP without packing, which every system opens. The same files in the same order give the same bytes.
 * The form: PKWARE's APPNOTE 6.3.3, sections 4.3.7 (local header), 4.3.12 (central header), 4.3.16 (end).
 */

const LOCAL = 0x04034b50, CENTRAL = 0x02014b50, END = 0x06054b50;
/** the version that is needed to open it, names in UTF-8, and the first day that the form can say: 1 January 1980 */
const NEEDED = 20, IN_UTF8 = 1 << 11, FIRST_DAY = 33;
const LOCAL_SIZE = 30, CENTRAL_SIZE = 46, END_SIZE = 22;

/** the remainders of bytes, by which a checksum is found byte by byte */
const REMAINDERS = Uint32Array.from({ length: 256 }, (_, byte) => {
    let rest = byte;
    for (let bit = 0; bit < 8; bit++) {
        rest = rest & 1 ? 0xedb88320 ^ (rest >>> 1) : rest >>> 1;
    }
    return rest;
});

/**
 * The CRC-32 of bytes.
 * @param {Uint8Array} bytes
 */
export function checksum(bytes) {
    let rest = 0xffffffff;
    for (const byte of bytes) {
        rest = REMAINDERS[(rest ^ byte) & 255] ^ (rest >>> 8);
    }
    return (rest ^ 0xffffffff) >>> 0;
}

/**
 * Numbers of two or four bytes, the lowest byte first.
 * @param {number} size in bytes
 * @param {[2 | 4, number][]} fields
 */
function header(size, fields) {
    const bytes = new Uint8Array(size), view = new DataView(bytes.buffer);
    let at = 0;
    for (const [width, value] of fields) {
        width === 2 ? view.setUint16(at, value, true) : view.setUint32(at, value, true);
        at += width;
    }
    return bytes;
}

/**
 * The archive.
 * @param {Map<string, Uint8Array>} files by their names, with / between a folder and what is in it; fewer than 65,536, of less than
 *     4 GiB in all
 * @returns {Uint8Array[]} the archive's bytes, in pieces
 */
export function archive(files) {
    /** @type {Uint8Array[]} */
    const pieces = [], listed = [];
    let place = 0, listedSize = 0;
    for (const [given, bytes] of files) {
        const name = new TextEncoder().encode(given), size = bytes.length;
        /** @type {[2 | 4, number][]} */
        const about = [[2, NEEDED], [2, IN_UTF8], [2, 0], [2, 0], [2, FIRST_DAY], [4, checksum(bytes)], [4, size], [4, size], [2, name.length]];
        pieces.push(header(LOCAL_SIZE, [[4, LOCAL], ...about, [2, 0]]), name, bytes);
        listed.push(header(CENTRAL_SIZE, [[4, CENTRAL], [2, NEEDED], ...about, [2, 0], [2, 0], [2, 0], [2, 0], [4, 0], [4, place]]), name);
        place += LOCAL_SIZE + name.length + size;
        listedSize += CENTRAL_SIZE + name.length;
    }
    const count = files.size;
    return [...pieces, ...listed, header(END_SIZE, [[4, END], [2, 0], [2, 0], [2, count], [2, count], [4, listedSize], [4, place], [2, 0]])];
}

/** Files that are dropped or chosen, out of folders too. */
import { element } from "./elements.js";

/** @typedef {{name: string, bytes: Uint8Array}} Taken a file, by its name without its folders */
/** @typedef {{kind: "file", name: string, getFile: () => Promise<File>}} FileHandle a file as Chromium hands it out */
/** @typedef {{kind: "directory", values: () => AsyncIterable<Handle>}} FolderHandle and a folder */
/** @typedef {FileHandle | FolderHandle} Handle */
/** @typedef {DataTransferItem & {getAsFileSystemHandle?: () => Promise<Handle>}} Item */

/** names of files that may be stations, where a whole folder is taken */
const STATION = /\.(xml|railml)$/i;

/**
 * The files in a folder and in the folders in it.
 * @param {FileSystemEntry} entry
 * @returns {Promise<File[]>}
 */
async function filesIn(entry) {
    if (entry.isFile) {
        return [await new Promise((resolve, reject) => /** @type {FileSystemFileEntry} */ (entry).file(resolve, reject))];
    }
    const reader = /** @type {FileSystemDirectoryEntry} */ (entry).createReader();
    /** @type {FileSystemEntry[]} */
    const entries = [];
    // each call gives some of them, and the last one none
    for (let some = [entry]; some.length;) {
        some = await new Promise((resolve, reject) => reader.readEntries(resolve, reject));
        entries.push(...some);
    }
    return (await Promise.all(entries.map(filesIn))).flat().filter((it) => STATION.test(it.name));
}

/**
 * The same by handles.
 * @param {FolderHandle} folder
 * @returns {Promise<File[]>}
 */
async function filesBehind(folder) {
    const found = [];
    for await (const it of folder.values()) {
        if (it.kind === "directory") found.push(...await filesBehind(it));
        else if (STATION.test(it.name)) found.push(await it.getFile());
    }
    return found;
}

/**
 * A file's name without its ending: how what comes of it is named.
 * @param {string} name
 * @returns {string}
 */
export function stemOf(name) {
    return name.replace(/\.\w+$/, "");
}

/**
 * What was dropped: files, or what is in folders. Where a page was opened as a file, Chromium's entries can't be read, so its
 * handles are asked for; other browsers have entries alone.
 * @param {DataTransfer} transfer
 * @returns {Promise<File[]>}
 * @throws where a folder can't be read
 */
export async function dropped(transfer) {
    const items = /** @type {Item[]} */ ([...transfer.items]).filter((it) => it.kind === "file");
    const entries = items.map((it) => it.webkitGetAsEntry());
    if (!entries.some((it) => it?.isDirectory)) {
        return [...transfer.files];
    }
    // all are asked for at once, since nothing is given any more when the drop is over
    const handles = items.map((it) => it.getAsFileSystemHandle?.());
    const found = await Promise.all(items.map(async (_, at) => {
        const handle = await handles[at], entry = entries[at];
        return handle?.kind === "directory" ? filesBehind(handle) : handle ? [await handle.getFile()] : entry ? filesIn(entry) : [];
    }));
    return found.flat();
}

/**
 * A field in which files are chosen.
 * @param {string} label
 * @param {(files: File[]) => void} take
 * @param {"one" | "several" | "folder"} [kind]
 */
export function chooser(label, take, kind = "one") {
    const input = element("input", { type: "file", "aria-label": label, multiple: kind !== "one", webkitdirectory: kind === "folder" });
    input.addEventListener("change", () => {
        const files = [...input.files ?? []];
        // else the same file, changed meanwhile, couldn't be chosen again
        input.value = "";
        take(kind === "folder" ? files.filter((it) => STATION.test(it.name)) : files);
    });
    return input;
}

/**
 * @param {File} file
 * @returns {Promise<Taken>}
 */
export async function taken(file) {
    return { name: file.name, bytes: new Uint8Array(await file.arrayBuffer()) };
}

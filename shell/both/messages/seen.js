/** What messages ask of the files of a run: functions that a terminal and a page give, each in its own way. */

/** @typedef {object} Seen
 * @property {(name: string) => Uint8Array | null} bytes what a railML file or a sheet has, to one byte more than the program
 * reads; null where it can't be read again, as a pipe
 * @property {(name: string, number: number) => string} line a line of a file, counted from 1, without its line feed; "" where
 * there is none
 * @property {(name: string) => "folder" | "other" | ""} kind what is there by a name, or ""
 * @property {(folder: string) => string[]} names the names in a folder, "" for the one where the run is; none where they can't
 * be read
 * @property {(name: string) => string} why why a file can't be read, as the end of a sentence; "" where it can */

export {};

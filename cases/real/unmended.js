/** Files that are refused and of which nothing that is said leads to a drawing here, each with why. A file that has a remedy after
 * all, or one without that isn't listed, is a failure. */

/** @type {Map<string, string>} by the names of the kinds */
export const UNMENDED = new Map([
    ["slip-on-both-tracks", "a track is to be cut in two at a crossing: too much to be done from a sentence"],
    ["triangle", "which of its tracks is cut is for who draws it"],
    ["turning-loop", "where the ring is cut is for who draws it"],
    ["thousands", "whether a comma parts thousands or decimals only the producer knows"],
    ["ids-twice", "which of two elements of one id is meant where it is named isn't in the file"],
    ["switch-far-outside", "where a switch a metre outside its track lies only the ground says"],
    ["two-outside", "which of two switches outside their track lies before the other only the ground says"],
    ["branch-left-out", "the track behind a switch isn't in the file, and how long it is only the ground says"],
    ["slip-four-connections", "the ways over a slip aren't drawn, and its hands aren't written"],
    ["railML-3-crossing", "which of two crossing paths lies left isn't in the file"],
    ["railML-3-slip", "slips of railML 3 aren't read"],
    ["railML-3-branches-exchanged", "the file contradicts itself: which leg is left only the ground says"],
    ["railML-3-no-measures", "no kilometres are in the file"],
]);

/** What the laws of nodes ask, in words: for standard error and for pages, which call things by other names. */

/** @typedef {{name: string, mileage: string}} Named a node by name, with its mileage in metres, or "" where none is known */

/**
 * A mileage in metres, as the sheet has it, in kilometres with three decimals or as many as it needs.
 * @param {string} mileage
 * @returns {string}
 */
export function kilometres(mileage) {
    const sign = mileage.startsWith("-") ? "-" : "";
    const [written, part = ""] = mileage.slice(sign.length).split(".");
    const whole = written.padStart(4, "0");
    const decimals = (whole.slice(-3) + part).replace(/0+$/, "");
    return `${sign}${whole.slice(0, -3)}.${decimals.padEnd(3, "0")}`;
}

/**
 * Law 4: the slopes at a node of a kind, of a switch with the side of its diverging leg.
 * @param {string} name @param {string} kind @param {string} side
 * @returns {string}
 */
export function atNode(name, kind, side) {
    switch (kind) {
        case "switch":
            return `at the switch ${name} the trunk and the straight leg have one slope, and the diverging leg is one step `
                + `steeper on the ${side} side`;
        case "crossing":
            return `at the crossing ${name} each path has one slope on both sides, and the rising path's is the greater`;
        case "joint":
            return `through the joint ${name} both lines have one slope`;
        case "end":
            return `at the end ${name} the line is level`;
        default:
            return `at ${name} the lines' slopes are those that its kind asks for`;
    }
}

/**
 * Law 2: which of two nodes lies further left by their mileages; nothing of these where one lacks.
 * @param {Named} one @param {Named} other
 * @returns {string}
 */
export function byMileage(one, other) {
    if (!one.mileage || !other.mileage) {
        return `the nodes ${one.name} and ${other.name} lie from left to right as their mileages do`;
    }
    const [west, east] = Number(one.mileage) <= Number(other.mileage) ? [one, other] : [other, one];
    if (Number(west.mileage) === Number(east.mileage)) {
        return `the nodes ${west.name} and ${east.name}, both at km ${kilometres(west.mileage)}, lie in one column`;
    }
    return `the node ${west.name}, at km ${kilometres(west.mileage)}, doesn't lie further right than ${east.name}, at km `
        + kilometres(east.mileage);
}

// The lists of the office. Their columns are those of docs/openapi.yaml, a space after each; the last takes the rest of the line.

import {Trouble, ask} from "./asking.js";
import {hearMoment} from "./time.js";

export const ALARM_COLUMNS = {tag: 24, state: 14, priority: 2, flags: 3, limit: 6};
export const STANDING_COLUMNS = {tag: 24, state: 14, priority: 2, since: 20, flags: 3};
export const SHELF_COLUMNS = {tag: 24, kind: 8, start: 20, left: 6, person: 32, words: Infinity};
export const MINE_COLUMNS = {unit: 8, ...SHELF_COLUMNS};
export const FLOOD_COLUMNS = {begin: 20, until: 20, total: 6, peak: 6};
const HEADING = /^([A-Z]+) (\S+) (?:AT ([0-9T:-]{19}Z)|FROM [0-9T:-]{19}Z TO [0-9T:-]{19}Z) COUNT (\d+)\n/;

function rowOf(line, columns) {
    const row = {};
    let place = 0;
    for (const [name, width] of Object.entries(columns)) {
        const cell = line.slice(place, place + width);
        row[name] = name === "words" ? cell : cell.trim();
        place += width + 1;
    }
    return row;
}

// The rows, the moment of the answer, and whose list it is.
export async function askList(path, what, columns, unit, patience) {
    const text = await ask("GET", path, undefined, patience);
    const found = HEADING.exec(text);
    const rows = text.split("\n").slice(1, -1).map((line) => rowOf(line, columns));
    if (found === null || found[1] !== what || (unit && found[2] !== unit) || rows.length !== Number(found[4])) {
        throw new Trouble("The answer is not the list that was asked for.", what, {lost: true});
    }
    if (found[3]) {
        hearMoment(Date.parse(found[3]));
    }
    return {whose: found[2], at: Date.parse(found[3]), rows};
}

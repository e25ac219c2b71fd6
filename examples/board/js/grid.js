// The matrix of priorities as a grid to look at: a cell for each severity and time to respond. More severity or less time must not lead
// to a lower priority.

import {make} from "./elements.js";
import {atRest, makeMark} from "./marks.js";
import {lengthText} from "./texts.js";

export const CELLS = ["P1", "P2", "P3", "P4", "N"]; // the highest first
const height = (cell) => CELLS.length - CELLS.indexOf(cell);

// The times of a column in words, from its bands in seconds.
export function timesText(bands, column) {
    const [from, until] = [bands[column - 1], bands[column]].map((band) => band && lengthText(band));
    if (!from && !until) {
        return "any time";
    }
    return from ? (until ? `${from} to under ${until}` : `${from} and more`) : `under ${until}`;
}

// In colour, with what differs from the matrix before, and with how many records in force fall into each cell, if `counts` has them.
export function makeGrid({bands, cells}, before, counts) {
    const heads = [...cells[0].keys()].map((column) => {
        const head = make("th", "", timesText(bands, column));
        head.scope = "col";
        return head;
    });
    const isSameShape = before && JSON.stringify(before.bands) === JSON.stringify(bands) && before.cells.length === cells.length;
    const rows = [...cells.keys()].reverse().map((row) => {
        const name = make("th", "", make("span", "word", "Severity "), String(row + 1));
        name.scope = "row";
        return make("tr", "", name, ...cells[row].map((cell, column) => {
            const mark = makeMark();
            mark.show(atRest(cell));
            mark.node.classList.add("tinted");
            const was = isSameShape ? before.cells[row][column] : cell;
            const count = counts?.[row][column] ?? 0;
            return make("td", was === cell ? "" : "differs", mark.node, was === cell ? "" : make("span", "was", `was ${was}`),
                count > 0 ? make("span", "aside count", count === 1 ? "1 record" : `${count} records`) : "");
        }));
    });
    const head = make("tr", "", make("td", "", make("span", "word", "Time to respond")), ...heads);
    return make("table", "grid", make("thead", "", head), make("tbody", "", ...rows));
}

// ---- Where an order is broken

// The pairs of cells, and what is said of each: [[row, column], [row, column], words].
export function brokenPairs(cells) {
    const pairs = [];
    cells.forEach((row, severity) => row.forEach((cell, column) => {
        if (column + 1 < row.length && height(row[column + 1]) > height(cell)) {
            const words = `Severity ${severity + 1}: ${row[column + 1]} with more time is above ${cell} with less.`;
            pairs.push([[severity, column], [severity, column + 1], words]);
        }
        if (severity + 1 < cells.length && height(cells[severity + 1][column]) < height(cell)) {
            const above = cells[severity + 1][column];
            const words = `Severity ${severity + 2} has ${above}, below ${cell} of severity ${severity + 1} in the same column.`;
            pairs.push([[severity, column], [severity + 1, column], words]);
        }
    }));
    return pairs;
}

// The priority that a record gets by a matrix, and which records in force get another one by a matrix that is proposed. The records are
// asked for one after another while the page is idle.

import {getUnless} from "./asking.js";
import {matrixInForce} from "./changes.js";
import {make, makeLink} from "./elements.js";
import {addressOf, here, holds, isShut} from "./here.js";
import {makeIdle} from "./idle.js";
import {atRest, makeMark} from "./marks.js";
import {secondsText} from "./texts.js";

const SELDOM = 300000; // milliseconds after which a record is asked for anew
const MOST_LINES = 100;

const columnOf = (bands, response) => {
    const column = bands.findIndex((band) => response < band);
    return column < 0 ? bands.length : column;
};

// P1 to P4 or N, or null if the matrix has no row of the severity.
const priorityBy = ({bands, cells}, {severity, response}) => cells[severity - 1]?.[columnOf(bands, response)] ?? null;

// ---- A record that is proposed

// What its priority is by the matrix in force, and whether that is known: `priority`, or null with `words` that say why not. `held` is the
// record in force, if any.
export function priceOf(unit, record, held) {
    const matrix = matrixInForce(unit);
    if (matrix?.content) {
        const priority = priorityBy(matrix.content, record);
        const words = priority === null
            ? `none: the matrix in force has no row for severity ${record.severity}, and the office refuses this`
            : priority === "N" ? "no alarm is needed by the matrix in force, and the office refuses this" : "";
        return {priority, words, isKnown: true};
    }
    if (held && held.severity === record.severity && held.response === record.response) {
        return {priority: held.priority, words: "", isKnown: true};
    }
    return {priority: null, isKnown: false, isLooking: matrix === null, words: matrix === null
        ? "Looking for the matrix in force…"
        : "not known: no matrix was approved yet, and no call gives the one that the unit was opened with"};
}

export function makePrice({priority, words}) {
    const node = make("span", "price");
    if (priority !== null) {
        node.append(makeTinted(priority));
    }
    if (words !== "") {
        node.append(make("span", "", words));
    }
    return node;
}

// the mark of a priority in its colour
function makeTinted(priority) {
    const mark = makeMark();
    mark.show(atRest(priority));
    mark.node.classList.add("tinted");
    return mark.node;
}

// Who may draw a matrix up is offered to propose the one of the opening once, so that everybody can read it.
export function makeOffer(unit) {
    const node = make("p", "note offer");
    if (matrixInForce(unit)?.content === null) {
        const link = makeLink("", "Propose the same matrix once", addressOf(unit, "matrix"));
        node.append(...holds("Engineer")
            ? [link, ", by the papers of the opening: then everybody can read it."]
            : ["An engineer may propose the same matrix once: then everybody can read it."]);
    }
    node.hidden = node.childNodes.length === 0;
    return node;
}

// ---- The records in force

const stores = new Map(); // by unit, and of each the records by tag, with the priority that was listed when they were asked for

const recordsOf = (unit) => stores.get(unit) ?? stores.set(unit, new Map()).get(unit);

function* missing(unit) {
    const records = recordsOf(unit);
    for (const [tag, alarm] of here.alarms) {
        const known = records.get(tag);
        if (alarm.priority !== "-" && (known?.listed !== alarm.priority || performance.now() - known.asked > SELDOM)) {
            yield tag;
        }
    }
}

async function askRecord(unit, tag) {
    const [listed, asked] = [here.alarms.get(tag)?.priority, performance.now()];
    const record = await getUnless("RecordUnknown", `/units/${unit}/alarms/${tag}/record`);
    recordsOf(unit).set(tag, {...record, listed, asked});
}

export const lookAtRecords = makeIdle({isWanted: () => here.isComparing && !isShut(), missing, ask: askRecord});

// What the records in force get by a matrix: how many of how many were compared, how many fall into each cell, and those that change.
export function compareRecords(unit, matrix) {
    const counts = matrix.cells.map((row) => row.map(() => 0));
    const changed = [];
    let compared = 0;
    let total = 0;
    for (const [tag, {priority}] of here.alarms) {
        const record = recordsOf(unit).get(tag);
        total += priority === "-" ? 0 : 1;
        if (priority === "-" || record?.severity === undefined) {
            continue;
        }
        compared += 1;
        const after = priorityBy(matrix, record);
        if (after !== null) {
            counts[record.severity - 1][columnOf(matrix.bands, record.response)] += 1;
        }
        if (after !== priority) {
            changed.push({tag, before: priority, after, severity: record.severity, response: record.response});
        }
    }
    return {compared, total, counts, changed};
}

export function makeComparedList(unit, {compared, total, changed}, isDraft = false) {
    const title = total === 0 ? "No record is in force that a matrix could change."
        : `${changed.length} of ${compared} records in force ${isDraft ? "would get" : "get"} another priority by it.`
            + (compared < total ? ` ${compared} of ${total} were compared; the page looks on.` : "");
    const lines = changed.slice(0, MOST_LINES).map(({tag, before, after, severity, response}) => make("li", "",
        makeTinted(before), make("span", "", "→"), ...after === null ? [make("b", "no-row", "no row")] : [makeTinted(after)],
        makeLink("tag", tag, addressOf(unit, tag)), make("span", "aside", `severity ${severity}, ${secondsText(response)}`)));
    const rest = changed.length > MOST_LINES ? [make("p", "note", `The first ${MOST_LINES} are listed.`)] : [];
    const outside = changed.some((each) => each.after === null)
        ? [make("p", "caution", "The matrix has no row for the severity of some record in force, and the office refuses it.")] : [];
    return make("div", "compared", make("p", "", title), ...outside, make("ul", "", ...lines), ...rest);
}

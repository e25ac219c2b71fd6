// A matrix of priorities is drawn up anew. Where its order is broken it shows before anything is sent.

import {act} from "./acting.js";
import {$, areRight, make, put, say, sayAnswer} from "./elements.js";
import {forgetChanges, matrixInForce, standsOfProposal, storeOf} from "./changes.js";
import {CELLS, brokenPairs, timesText} from "./grid.js";
import {here, keeps} from "./here.js";
import {atRest, makeMark} from "./marks.js";
import {compareRecords, makeComparedList} from "./pricing.js";
import {LENGTH_WANTED, lengthText, secondsOf} from "./texts.js";

const MOST_SEVERITIES = 5;
const MOST_BANDS = 4;

// ---- To draw up

const form = $("matrix");
const draft = {bands: ["5 min"], cells: [["P3", "P4"], ["P1", "P2"]]}; // the bands as they were typed
let filledFor = null; // the unit and the revision that the draft was filled for
let isTouched = false;
let isWhole = false; // whether the draft's order is broken nowhere
let comparedAs = ""; // what the list of records was built of

const bandsOf = () => draft.bands.map((band) => secondsOf(band));
const fieldOf = (row, column) => form.querySelector(`[data-cell="${row} ${column}"]`);

function makeCell(row, column) {
    const mark = makeMark();
    const select = make("select");
    select.append(...CELLS.map((cell) => new Option(cell, cell)));
    select.value = draft.cells[row][column];
    select.dataset.cell = `${row} ${column}`;
    mark.show(atRest(select.value));
    select.addEventListener("change", () => {
        draft.cells[row][column] = select.value;
        mark.show(atRest(select.value));
        isTouched = true;
        check();
    });
    return make("td", "", mark.node, select);
}

function makeHead(column) {
    const head = make("th", "", make("span", "times"));
    head.scope = "col";
    if (column < draft.bands.length) {
        const field = make("input", "band");
        field.autocomplete = "off";
        field.value = draft.bands[column];
        put(field, "aria-label", `End of time ${column + 1}`);
        field.addEventListener("input", () => {
            draft.bands[column] = field.value;
            isTouched = true;
            check();
        });
        head.append(field);
    }
    return head;
}

// after a change of the shape
function build() {
    const columns = draft.bands.length + 1;
    const heads = [...Array(columns).keys()].map(makeHead);
    const rows = [...draft.cells.keys()].reverse().map((row) => {
        const name = make("th", "", make("span", "word", "Severity "), String(row + 1));
        name.scope = "row";
        return make("tr", "", name, ...[...Array(columns).keys()].map((column) => makeCell(row, column)));
    });
    const corner = make("td", "", make("span", "word", "Time to respond"));
    $("grid").replaceChildren(make("thead", "", make("tr", "", corner, ...heads)), make("tbody", "", ...rows));
    for (const [id, isPossible] of [
        ["add-severity", draft.cells.length < MOST_SEVERITIES], ["drop-severity", draft.cells.length > 1],
        ["add-band", draft.bands.length < MOST_BANDS], ["drop-band", draft.bands.length > 0],
    ]) {
        $(id).disabled = !isPossible;
    }
    check();
}

// Shows where the order is broken; whether it is nowhere.
function check() {
    const bands = bandsOf();
    const words = [];
    form.querySelectorAll(".band").forEach((field, column) => {
        const isRight = bands[column] !== null && (column === 0 || bands[column - 1] === null || bands[column] > bands[column - 1]);
        put(field, "aria-invalid", isRight ? null : "true");
        if (!isRight) {
            words.push(bands[column] === null
                ? `The end of time ${column + 1} has to be ${LENGTH_WANTED}.`
                : `Time ${column + 1} has to end later than time ${column}.`);
        }
    });
    form.querySelectorAll(".times").forEach((head, column) => {
        say(head, bands.includes(null) ? `Time ${column + 1}` : timesText(bands, column));
    });
    const pairs = brokenPairs(draft.cells);
    const broken = new Set(pairs.flatMap(([one, other]) => [one.join(" "), other.join(" ")]));
    form.querySelectorAll("[data-cell]").forEach((select) => {
        const isBroken = broken.has(select.dataset.cell);
        const [row, column] = select.dataset.cell.split(" ").map(Number);
        put(select, "aria-invalid", isBroken ? "true" : null);
        put(select, "aria-label", `Severity ${row + 1}, ${bands.includes(null) ? `time ${column + 1}` : timesText(bands, column)}`);
        put(select.parentElement, "class", isBroken ? "broken" : "");
    });
    words.push(...pairs.map((pair) => pair[2]));
    isWhole = words.length === 0;
    showCompared();
    $("broken").hidden = isWhole;
    $("broken-lines").replaceChildren(...words.map((line) => make("li", "", line)));
    return isWhole;
}

// Which records in force get another priority by the draft. While the matrix of the opening is entered, it should be none.
function showCompared() {
    const compared = isWhole && here.unit !== null ? compareRecords(here.unit, {bands: bandsOf(), cells: draft.cells}) : null;
    const built = JSON.stringify([here.unit, compared]);
    if (built !== comparedAs) {
        comparedAs = built;
        $("draft-compared").replaceChildren(compared ? makeComparedList(here.unit, compared, true) : "");
    }
}

// From the matrix in force, unless something was drawn up already.
export function showMatrix() {
    if (here.view !== "matrix" || here.unit === null) {
        return;
    }
    here.isComparing = true;
    const {last, known, isCounted} = storeOf(here.unit);
    const inForce = matrixInForce(here.unit);
    if (inForce === null) {
        say($("matrix-note"), isCounted
            ? `Looking for the matrix in force: none was approved among the ${known.size} of ${last} changes that were looked at.`
            : "Looking for the matrix in force…");
    } else if (inForce.content === null) {
        say($("matrix-note"), "In force is the matrix that the unit was opened with, revision 0. No call gives its cells. "
            + "Propose the same one once, by the papers of the opening: then everybody can read it.");
    } else {
        say($("matrix-note"), `In force is revision ${inForce.revision}, by change ${inForce.number}.`);
    }
    if (inForce && $("matrix-base").value === "" && document.activeElement !== $("matrix-base")) {
        $("matrix-base").value = String(inForce.revision);
    }
    const key = inForce && `${here.unit}/${inForce.revision}`;
    if (key && key !== filledFor && !isTouched) {
        filledFor = key;
        $("matrix-base").value = String(inForce.revision);
        if (inForce.content) {
            draft.bands = inForce.content.bands.map(lengthText);
            draft.cells = inForce.content.cells.map((row) => [...row]);
            build();
        }
    }
    $("propose-matrix").hidden = !keeps("Engineer");
    showCompared();
}

export function forgetMatrix() {
    filledFor = null;
    isTouched = false;
    $("matrix-base").value = "";
    Object.assign(draft, {bands: ["5 min"], cells: [["P3", "P4"], ["P1", "P2"]]});
    sayAnswer(form, "", "");
    build();
}

function reshape(change) {
    change();
    isTouched = true;
    build();
}

$("add-severity").addEventListener("click", () => reshape(() => draft.cells.push([...draft.cells.at(-1)])));
$("drop-severity").addEventListener("click", () => reshape(() => draft.cells.pop()));
$("add-band").addEventListener("click", () => reshape(() => {
    draft.bands.push(lengthText(Math.min(2 * (secondsOf(draft.bands.at(-1) ?? "") ?? 150), 604800)));
    draft.cells.forEach((row) => row.push(row.at(-1)));
}));
$("drop-band").addEventListener("click", () => reshape(() => {
    draft.bands.pop();
    draft.cells.forEach((row) => row.pop());
}));
$("matrix-anew").addEventListener("click", () => {
    forgetMatrix();
    showMatrix();
});
// Enter in a time is not meant to send
$("grid").addEventListener("keydown", (event) => {
    if (event.key === "Enter" && event.target.matches(".band")) {
        event.preventDefault();
    }
});
form.addEventListener("submit", async (event) => {
    event.preventDefault();
    const base = /^\d{1,5}$/.test($("matrix-base").value.trim()) ? Number($("matrix-base").value) : null;
    if (!check()) {
        sayAnswer(form, "The matrix was not sent: its order is broken where it is marked.", "refused");
        (form.querySelector("[aria-invalid]")).focus();
        return;
    }
    if (!areRight(form, [[$("matrix-base"), base !== null, "Which revision was it drawn up for? Give its number, 0 for the first."]])) {
        return;
    }
    const {unit} = here;
    const body = {kind: "matrix", base, bands: bandsOf(), cells: draft.cells};
    const accepted = await act(form, {
        subject: "the matrix",
        path: `/units/${unit}/changes`,
        body: JSON.stringify(body),
        done: (text) => `The matrix is proposed as change ${JSON.parse(text).number}. Another person has to approve it.`,
        stands: () => standsOfProposal(unit, body),
    });
    isTouched = !accepted;
    forgetChanges();
});

build();

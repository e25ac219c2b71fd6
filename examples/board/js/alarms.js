// The alarms of the unit, the standing ones, and the strip that counts those that ask for attention.

import {$, fill, make, makeLink, put, say} from "./elements.js";
import {addressOf, here, isShut} from "./here.js";
import {ALARM_COLUMNS, SHELF_COLUMNS, STANDING_COLUMNS, askList} from "./lists.js";
import {asksForAttention, atRest, isSuppressed, isUnacknowledged, makeFlags, makeMark, makeShelf, makeState} from "./marks.js";
import {announce} from "./news.js";
import {sortedBy} from "./order.js";
import {printLists} from "./paper.js";
import {forgetRemovals} from "./service.js";
import {forgetStanding, showStanding, sortedStanding} from "./standing.js";
import {FLAGS, lengthText} from "./texts.js";

// ---- Asking

export async function askAlarms() {
    if (isShut() || here.view === "several") {
        return null;
    }
    const unit = here.unit;
    const list = (path, what, columns) => askList(`/units/${unit}/${path}`, what, columns, unit);
    const listed = await list("alarms", "ALARMS", ALARM_COLUMNS);
    const shelves = await list("shelves", "SHELVES", SHELF_COLUMNS);
    const standing = await list("standing", "STANDING", STANDING_COLUMNS);
    return () => {
        const shelfOf = new Map(shelves.rows.map((shelf) => [shelf.tag, {...shelf, end: shelves.at + Number(shelf.left) * 1000}]));
        const before = here.alarms;
        here.alarms = merged(before, listed.rows, shelfOf);
        forgetRemovals(unit, here.alarms);
        here.standing = new Map(standing.rows.map((alarm) => [alarm.tag, alarm.since]));
        here.answeredAt = standing.at;
        announce(before, here.alarms);
        showAlarms();
        showStanding(standing.rows);
        showStrip();
    };
}

// The alarms by tag. One that is as it was stays the same object, so that it is not drawn anew.
function merged(before, rows, shelfOf) {
    return new Map(rows.map((row) => {
        const [old, shelf] = [before.get(row.tag), shelfOf.get(row.tag) ?? null];
        const isSame = old && Object.keys(row).every((name) => old[name] === row[name]) && isSameShelf(old.shelf, shelf);
        return [row.tag, isSame ? old : {...row, shelf}];
    }));
}

const isSameShelf = (one, other) => one === other
    || (one !== null && other !== null && ["kind", "start", "person", "words", "end"].every((name) => one[name] === other[name]));

// What was shown of another unit goes.
export function forgetAlarms() {
    here.alarms = new Map();
    here.standing = new Map();
    here.answeredAt = null;
    showAlarms();
    showStrip();
    forgetStanding();
}

// ---- The alarms

const alarmList = {
    place: $("alarm-table"),
    skip: 1,
    rows: new Map(),
    lookOf: (alarm) => `${alarm.tag === here.tag} ${wanted.has(alarm)}`,
    make(tag) {
        const [mark, state, flags, shelf] = [makeMark(), makeState(), makeFlags(), makeShelf()];
        const limit = make("td", "number limit");
        const link = makeLink("", tag, addressOf(here.unit, tag));
        const name = make("th", "tag", link);
        name.scope = "row";
        const [priority, states, flagCell] = [mark, state, flags].map((part) => make("td", "", part.node));
        const first = make("tr", "", priority, name, states, flagCell, limit);
        const shelfCell = make("td", "", shelf.node);
        shelfCell.colSpan = 3;
        const second = make("tr", "shelf-row", make("td"), shelfCell, make("td", "limit"));
        const node = make("tbody", "", first, second);
        node.dataset.tag = tag;
        nameParts(node, name, first, second);
        // the link is for the keyboard; a mouse may hit anything of the row
        node.addEventListener("click", (event) => {
            if (event.target !== link && getSelection().isCollapsed) {
                link.click();
            }
        });
        const show = (alarm) => {
            mark.show(alarm);
            state.show(alarm);
            flags.show(alarm);
            say(limit, lengthText(Number(alarm.limit)));
            second.hidden = alarm.shelf === null;
            if (alarm.shelf) {
                shelf.show(alarm.shelf);
            } else {
                shelf.end();
            }
            put(node, "class", tag === here.tag ? "chosen" : "");
            put(link, "aria-current", tag === here.tag ? "true" : null);
            node.hidden = !wanted.has(alarm);
        };
        return {node, show};
    },
};

// The parts of a row say what they are: their layout is not that of a table.
function nameParts(node, name, ...lines) {
    put(node, "role", "rowgroup");
    for (const line of lines) {
        put(line, "role", "row");
        [...line.children].forEach((cell) => put(cell, "role", cell === name ? "rowheader" : "cell"));
    }
}

let wanted = new Set(); // the alarms that are shown

function wantedOf(alarms) {
    const [words, show] = [$("find").value.trim().toUpperCase(), $("show").value];
    const isShown = {all: () => true, abnormal: (alarm) => alarm.state !== "Normal", suppressed: isSuppressed}[show];
    return alarms.filter((alarm) => alarm.tag.includes(words) && isShown(alarm));
}

const sortedAlarms = () => sortedBy($("sort").value, [...here.alarms.values()], (alarm) => here.standing.get(alarm.tag));

export function showAlarms() {
    const alarms = sortedAlarms();
    wanted = new Set(wantedOf(alarms));
    fill(alarmList, alarms);
    const shown = wanted.size;
    say($("alarms-title"), shown === alarms.length ? `Alarms: ${shown}` : `Alarms: ${shown} of ${alarms.length}`);
    const counts = FLAGS.map(([letter, meaning]) => [alarms.filter((alarm) => alarm.flags.includes(letter)).length, meaning]);
    say($("counts"), counts.filter(([count]) => count > 0).map(([count, meaning]) => `${count} ${meaning}`).join(", "));
}

export function focusAlarm(tag) {
    alarmList.rows.get(tag)?.node.querySelector("a").focus();
}

// ---- The strip: for each priority how many alarms ask for attention, with the mark of the most urgent of them

const stripParts = ["P1", "P2", "P3", "P4", "-"].map((priority) => {
    const mark = makeMark();
    const count = make("b");
    const unseen = make("span", "unseen");
    $("strip").append(make("li", "", mark.node, count, unseen));
    return {priority, mark, count, unseen};
});

const URGENCY = ["Unacknowledged", "LatchedUnack", "ReturnedUnack", "Acknowledged"];
export const mostUrgent = (alarms) => URGENCY.map((state) => alarms.find((alarm) => alarm.state === state)).find(Boolean) ?? alarms[0];

export function showStrip(alarms = [...here.alarms.values()]) {
    const asking = alarms.filter(asksForAttention);
    for (const {priority, mark, count, unseen} of stripParts) {
        const own = asking.filter((alarm) => (priority === "-" ? !/^P[1-4]$/.test(alarm.priority) : alarm.priority === priority));
        const first = mostUrgent(own);
        mark.show(first ? {...first, priority} : atRest(priority));
        say(count, String(own.length));
        put(count, "class", own.length > 0 ? "" : "none");
        say(unseen, `not normal, ${own.filter(isUnacknowledged).length} not acknowledged`);
    }
}
showStrip();

// ---- Keys

// The arrows go from one alarm's link to the next. What is far from the page is not drawn, so rows are asked and not where their links are.
export function moveBy(event) {
    const {key, target, currentTarget: list} = event;
    if (!["ArrowDown", "ArrowUp", "Home", "End"].includes(key) || target.tagName !== "A") {
        return;
    }
    const rows = [...list.querySelectorAll(":scope > tbody, :scope > li")].filter((row) => !row.hidden);
    const place = rows.findIndex((row) => row.contains(target));
    const next = {ArrowDown: place + 1, ArrowUp: place - 1, Home: 0, End: rows.length - 1}[key];
    rows[Math.min(Math.max(next, 0), rows.length - 1)]?.querySelector("a").focus();
    event.preventDefault();
}

$("alarm-table").addEventListener("keydown", moveBy);
$("standing").addEventListener("keydown", moveBy);
$("find").addEventListener("input", showAlarms);
$("show").addEventListener("change", showAlarms);
$("sort").addEventListener("change", showAlarms);
printLists(sortedAlarms, sortedStanding);

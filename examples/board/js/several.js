// Several units side by side, for a control room that has more than one: how many alarms of each ask for attention, and the standing and
// the shelved alarms of all, by priority. A unit that does not answer is named, and the others go on.

import {mostUrgent, moveBy, showStrip} from "./alarms.js";
import {$, fill, make, makeLink, put, say} from "./elements.js";
import {addressOf, here} from "./here.js";
import {ALARM_COLUMNS, SHELF_COLUMNS, STANDING_COLUMNS, askList} from "./lists.js";
import {asksForAttention, atRest, isSuppressed, isUnacknowledged, makeFlags, makeMark, makeShelf, makeState} from "./marks.js";
import {announce} from "./news.js";
import {sinceText} from "./standing.js";
import {clockText, isUnit} from "./texts.js";

const PATIENCE = 15000; // milliseconds after which a unit that did not answer is asked again
const PRIORITIES = ["P1", "P2", "P3", "P4", "-", "N"];

let answers = new Map(); // by unit: its alarms with shelves and since when they stand, or words that say why not
let before = new Map(); // by unit and tag, for what is announced

async function askUnit(unit) {
    const list = (path, what, columns) => askList(`/units/${unit}/${path}`, what, columns, unit);
    const listed = await list("alarms", "ALARMS", ALARM_COLUMNS);
    const shelves = await list("shelves", "SHELVES", SHELF_COLUMNS);
    const standing = await list("standing", "STANDING", STANDING_COLUMNS);
    const shelfOf = new Map(shelves.rows.map((shelf) => [shelf.tag, {...shelf, end: shelves.at + Number(shelf.left) * 1000}]));
    const sinceOf = new Map(standing.rows.map((alarm) => [alarm.tag, alarm.since]));
    const alarms = listed.rows.map((alarm) => ({
        ...alarm, unit, key: `${unit}/${alarm.tag}`, shelf: shelfOf.get(alarm.tag) ?? null, since: sinceOf.get(alarm.tag) ?? null,
    }));
    return {alarms, words: "", at: standing.at, failed: null};
}

export async function askSeveral() {
    const {several} = here;
    if (here.view !== "several") {
        return null;
    }
    const found = new Map();
    const troubles = [];
    for (const unit of several) {
        const old = answers.get(unit) ?? {alarms: [], at: null, words: "", failed: null};
        if (!isUnit(unit)) {
            found.set(unit, {...old, words: "This is not a unit's code."});
        } else if (old.failed !== null && performance.now() - old.failed < PATIENCE) {
            found.set(unit, old);
        } else {
            try {
                found.set(unit, await askUnit(unit));
            } catch (error) {
                if (error.name === "401" || error.words === undefined) {
                    throw error;
                }
                troubles.push(error);
                // what a unit has refused is not shown as if it were so still
                const isRefused = ["NotGranted", "MomentBehind"].includes(error.name);
                here.isUnitsDue ||= isRefused;
                found.set(unit, {...old, alarms: isRefused ? [] : old.alarms, words: error.words, failed: performance.now()});
            }
        }
        if (here.view !== "several" || here.several !== several) {
            return null;
        }
    }
    if (troubles.length === several.length && troubles.every((error) => error.lost)) {
        throw troubles[0]; // nothing answers
    }
    return () => {
        answers = found;
        const alarms = [...found.values()].flatMap((answer) => answer.alarms);
        const named = alarms.map((alarm) => ({...alarm, tag: `${alarm.unit} ${alarm.tag}`}));
        const after = new Map(named.map((alarm) => [alarm.tag, alarm]));
        announce(before, after);
        before = after;
        here.answeredAt = Math.max(...[...found.values()].map((answer) => answer.at ?? 0)) || here.answeredAt;
        showSeveral();
    };
}

export function forgetSeveral() {
    answers = new Map();
    before = new Map();
    showSeveral();
}

// ---- Showing

const byPriority = (one, other) => PRIORITIES.indexOf(one.priority) - PRIORITIES.indexOf(other.priority);

function makeLine(kind) {
    return (key) => {
        const [unit, tag] = key.split("/");
        const [mark, state, flags, shelf] = [makeMark(), makeState(), makeFlags(), makeShelf()];
        const aside = make("span", "since");
        const link = makeLink("tag", tag, addressOf(unit, tag));
        put(link, "aria-label", `${tag} of ${unit}`);
        const words = kind === "shelved" ? shelf.node : state.node;
        const node = make("li", "", mark.node, make("span", "of-unit", unit), link, flags.node, words, aside);
        const show = (alarm) => {
            mark.show(alarm);
            flags.show(alarm);
            if (kind === "shelved") {
                shelf.show(alarm.shelf);
            } else {
                state.show(alarm);
                say(aside, sinceText(alarm.since));
            }
        };
        return {node, show};
    };
}

const lists = Object.fromEntries(["standing", "shelved"].map((kind) => [
    kind, {place: $(`several-${kind}-list`), skip: 0, rows: new Map(), make: makeLine(kind)},
]));

const unitList = {
    place: $("several-units"),
    skip: 0,
    rows: new Map(),
    make(unit) {
        const words = make("span", "why");
        const marks = PRIORITIES.slice(0, 5).map((priority) => {
            const [mark, count, unseen] = [makeMark(), make("b"), make("span", "unseen", " not normal")];
            return {priority, mark, count, node: make("span", "counted", mark.node, count, unseen)};
        });
        const node = make("li", "", makeLink("tag", unit, addressOf(unit)), ...marks.map((each) => each.node), words);
        const show = ({answer}) => {
            const asking = answer.alarms.filter(asksForAttention);
            for (const {priority, mark, count, node: cell} of marks) {
                const own = asking.filter((alarm) => (priority === "-" ? !/^P[1-4]$/.test(alarm.priority) : alarm.priority === priority));
                const first = mostUrgent(own);
                mark.show(first ? {...first, priority} : atRest(priority));
                say(count, String(own.length));
                cell.hidden = answer.at === null;
            }
            const old = answer.words && answer.at ? ` What is shown of it is of ${clockText(answer.at)}.` : "";
            say(words, answer.words + old);
            put(node, "class", answer.words ? "down" : "");
        };
        return {node, show};
    },
};

export function showSeveral() {
    if (here.view !== "several") {
        return;
    }
    const alarms = [...answers.values()].flatMap((answer) => answer.alarms);
    const rank = (alarm) => [isSuppressed(alarm) ? 1 : 0, PRIORITIES.indexOf(alarm.priority), isUnacknowledged(alarm) ? 0 : 1];
    const standing = alarms.filter((alarm) => alarm.since !== null).sort((one, other) => {
        const [ones, others] = [rank(one), rank(other)];
        const place = ones.findIndex((value, at) => value !== others[at]);
        return place >= 0 ? ones[place] - others[place] : other.since.localeCompare(one.since);
    });
    const shelved = alarms.filter((alarm) => alarm.shelf !== null);
    shelved.sort((one, other) => byPriority(one, other) || one.shelf.end - other.shelf.end);
    fill(unitList, [...answers].map(([tag, answer]) => ({tag, answer})));
    fill(lists.standing, standing, (alarm) => alarm.key);
    fill(lists.shelved, shelved, (alarm) => alarm.key);
    const open = standing.filter((alarm) => isUnacknowledged(alarm) && !isSuppressed(alarm)).length;
    say($("several-standing-title"), `Standing: ${standing.length}${open > 0 ? `, ${open} unacknowledged` : ""}`);
    say($("several-shelved-title"), `Shelved: ${shelved.length}`);
    showStrip(alarms);
}

$("several-standing-list").addEventListener("keydown", moveBy);
$("several-shelved-list").addEventListener("keydown", moveBy);

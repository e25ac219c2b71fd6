// One alarm, whole: its state, shelf, service, suppression and limit, its record, and the change that this came from.

import {getUnless} from "./asking.js";
import {$, makeFacts, makeLink, put, say, showFact} from "./elements.js";
import {addressOf, here, isShut} from "./here.js";
import {atRest, makeMark, makeShelf, makeState} from "./marks.js";
import {sinceText} from "./standing.js";
import {askRemovals, serviceText} from "./service.js";
import {hereText, isTag, plainMoment, secondsText, TAG_WANTED} from "./texts.js";

const mark = makeMark();
const state = makeState();
const shelf = makeShelf();
$("alarm-mark").append(mark.node);

const now = makeFacts($("alarm-facts"), ["State", "Shelf", "Service", "Suppression", "Limit"]);
const record = makeFacts($("record-facts"), ["Priority", "Severity", "Time to respond", "Cause", "Consequence", "Action", "Revision"]);
const origin = makeFacts($("origin-facts"), ["Change", "Proposed", "Approved", "Base"]);
const changeLink = makeLink("", "", "");
origin.Change.append(changeLink);

// what is known of the alarm that is shown: `alarm` as GET gives it, `record` and `change` or null
export const shown = {tag: null, alarm: null, record: null, change: null};
const listeners = [];
export const onAlarm = (listener) => listeners.push(listener);

const decided = new Map(); // changes that were approved, by unit and number: they do not change any more

export async function askAlarm() {
    const {unit, tag} = here;
    if (isShut() || tag === null || !isTag(tag)) {
        return null;
    }
    const path = `/units/${unit}/alarms/${tag}`;
    const alarm = await getUnless("AlarmUnknown", path);
    if (alarm?.out_of_service) {
        await askRemovals();
    }
    const held = alarm && (await getUnless("RecordUnknown", `${path}/record`));
    let change = null;
    if (held) {
        const key = `${unit}/${held.change}`;
        change = decided.get(key) ?? (await getUnless("ChangeUnknown", `/units/${unit}/changes/${held.change}`));
        decided.set(key, change);
    }
    return () => {
        Object.assign(shown, {tag, alarm, record: held, change});
        showAlarm();
    };
}

// Another alarm or none: what was shown of the one before goes.
export function changeAlarm() {
    Object.assign(shown, {tag: here.tag, alarm: null, record: null, change: null});
    showAlarm();
}

function showAlarm() {
    const {tag, alarm} = shown;
    say($("alarm-title"), tag ?? "");
    put($("alarm-close"), "href", addressOf(here.unit));
    const isWrong = tag !== null && !isTag(tag);
    const missing = isWrong ? `This is not an alarm's tag: ${TAG_WANTED}.` : "The unit has no such alarm.";
    const isMissing = isWrong || (alarm === null && here.alarms.size > 0 && !here.alarms.has(tag));
    say($("alarm-missing"), isMissing ? missing : "Asking the office…");
    $("alarm-missing").hidden = alarm !== null;
    for (const id of ["alarm-facts", "record-panel"]) {
        $(id).hidden = alarm === null;
    }
    const listed = here.alarms.get(tag);
    if (alarm) {
        showNow(alarm, listed);
        showRecord(shown);
    } else {
        mark.show(listed ?? atRest("-"));
    }
    listeners.forEach((listener) => listener());
}

function showNow(alarm, listed) {
    const flags = [alarm.shelf === "Unshelved" ? "-" : "S", alarm.suppressed ? "D" : "-", alarm.out_of_service ? "O" : "-"].join("");
    const own = {priority: shown.record?.priority ?? "-", state: alarm.state, flags};
    mark.show(own);
    state.show(own);
    const since = here.standing.get(alarm.tag);
    now.State.replaceChildren(state.node, since ? `\n${sinceText(since)}${hereText(Date.parse(since))}` : "");
    if (alarm.shelf !== "Unshelved" && listed?.shelf) {
        shelf.show(listed.shelf);
        if (shelf.node.parentElement !== now.Shelf) {
            now.Shelf.replaceChildren(shelf.node);
        }
    } else {
        say(now.Shelf, alarm.shelf === "Unshelved" ? "not shelved" : `shelved (${alarm.shelf})`);
    }
    say(now.Service, alarm.out_of_service ? serviceText(here.unit, alarm.tag) : "in service");
    say(now.Suppression, alarm.suppressed ? "suppressed by design" : "not suppressed by design");
    const holding = [[now.Shelf, alarm.shelf !== "Unshelved"], [now.Service, alarm.out_of_service], [now.Suppression, alarm.suppressed]];
    holding.forEach(([value, holds]) => put(value, "class", holds ? "holds" : ""));
    say(now.Limit, `${secondsText(alarm.limit)}\nrevision ${alarm.limit_revision}`);
}

function showRecord({record: held, change}) {
    $("record-none").hidden = held !== null;
    $("record-facts").hidden = held === null;
    $("origin").hidden = held === null;
    if (held === null) {
        return;
    }
    say(record.Priority, `${held.priority}${held.priority === "N" ? ", no alarm is needed," : ""} by the matrix in force`);
    say(record.Severity, String(held.severity));
    say(record["Time to respond"], secondsText(held.response));
    say(record.Cause, held.cause);
    say(record.Consequence, held.consequence);
    say(record.Action, held.action);
    say(record.Revision, String(held.revision));
    say(changeLink, `Change ${held.change}`);
    put(changeLink, "href", addressOf(here.unit, "changes", held.change));
    showFact(origin.Proposed, change && `by ${change.proposer}\n${plainMoment(change.proposed)}`);
    showFact(origin.Approved, change && `by ${change.decider}\n${plainMoment(change.decided)}`);
    showFact(origin.Base, change && `revision ${change.base}`);
}

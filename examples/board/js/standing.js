// The standing alarms of the unit: those that ask for attention first, then by priority, then the latest; or in another order.

import {$, fill, make, makeLink, put, say} from "./elements.js";
import {addressOf, here} from "./here.js";
import {isSuppressed, isUnacknowledged, makeFlags, makeMark, makeState} from "./marks.js";
import {sortedBy} from "./order.js";
import {minuteText, plainMoment} from "./texts.js";
import {momentNow} from "./time.js";

const DAY = 86400000;
let rows = [];

const standingList = {
    place: $("standing"),
    skip: 0,
    rows: new Map(),
    lookOf: (alarm) => sinceText(alarm.since),
    make(tag) {
        const [mark, state, flags] = [makeMark(), makeState(), makeFlags()];
        const since = make("span", "since");
        const node = make("li", "", mark.node, makeLink("tag", tag, addressOf(here.unit, tag)), flags.node, state.node, since);
        node.dataset.tag = tag;
        const show = (alarm) => {
            mark.show(alarm);
            state.show(alarm);
            flags.show(alarm);
            say(since, sinceText(alarm.since));
            put(since, "class", isOfToday(alarm.since) ? "since" : "since long");
        };
        return {node, show};
    },
};

const isOfToday = (since) => momentNow() - Date.parse(since) < DAY;

export function sinceText(since) {
    const begin = Date.parse(since);
    return isOfToday(since) ? `since ${minuteText(begin)}` : `since ${plainMoment(since).slice(0, 16)}`;
}

export const sortedStanding = () => sortedBy($("sort-standing").value, rows, (alarm) => alarm.since);

export function showStanding(standing = rows) {
    const before = new Map(rows.map((alarm) => [alarm.tag, alarm]));
    // what is as it was stays the same object, so that it is not drawn anew
    rows = standing.map((alarm) => {
        const old = before.get(alarm.tag);
        return old && ["state", "priority", "flags", "since"].every((name) => old[name] === alarm[name]) ? old : alarm;
    });
    fill(standingList, sortedStanding());
    const open = rows.filter((alarm) => isUnacknowledged(alarm) && !isSuppressed(alarm)).length;
    say($("standing-title"), `Standing: ${rows.length}${open > 0 ? `, ${open} unacknowledged` : ""}`);
}

export function forgetStanding() {
    rows = [];
    fill(standingList, []);
    say($("standing-title"), "Standing");
}

$("sort-standing").addEventListener("change", () => showStanding());

// What has changed among the alarms since the round before, for screen readers.

import {$, say} from "./elements.js";
import {FLAGS, STATES} from "./texts.js";

const MOST = 3; // alarms that are named; the others are counted

const stateText = (alarm) => {
    const flags = FLAGS.filter(([letter]) => alarm.flags.includes(letter)).map(([, meaning]) => meaning);
    const priority = alarm.priority === "-" ? [] : [alarm.priority];
    return `${alarm.tag}: ${[STATES.get(alarm.state) ?? alarm.state, ...priority, ...flags].join(", ")}`;
};

export function announce(before, after) {
    if (before.size === 0) {
        return; // another unit: everything is new
    }
    const changed = [...after.values()].filter((alarm) => {
        const old = before.get(alarm.tag);
        return !old || ["state", "flags", "priority"].some((name) => old[name] !== alarm[name]);
    });
    if (changed.length > 0) {
        const rest = changed.length > MOST ? [`${changed.length - MOST} more`] : [];
        say($("news"), [...changed.slice(0, MOST).map(stateText), ...rest].join("; "));
    }
}

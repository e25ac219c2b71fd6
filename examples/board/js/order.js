// The orders of the lists of alarms: by tag, priority, state, or by how long an alarm has been standing.

import {isSuppressed, isUnacknowledged} from "./marks.js";

const PRIORITIES = ["P1", "P2", "P3", "P4", "-", "N"];
const STATES = ["Unacknowledged", "LatchedUnack", "ReturnedUnack", "Acknowledged", "LatchedAck", "Normal"];
const LAST = "~"; // after each moment: an alarm that does not stand

const byTag = (one, other) => (one.tag < other.tag ? -1 : one.tag > other.tag ? 1 : 0);
const urgency = (alarm) => [isSuppressed(alarm) ? 1 : 0, isUnacknowledged(alarm) ? 0 : 1, PRIORITIES.indexOf(alarm.priority)];

// what is compared of an alarm, the first part first; `since` is the moment since when it stands, or nothing
const PARTS = {
    tag: () => [],
    priority: (alarm) => [PRIORITIES.indexOf(alarm.priority)],
    state: (alarm) => [STATES.indexOf(alarm.state), PRIORITIES.indexOf(alarm.priority)],
    oldest: (alarm, since) => [since ?? LAST],
    newest: (alarm, since) => [since ? 0 : 1, since ? -Date.parse(since) : 0],
    urgency: (alarm, since) => [...urgency(alarm), since ? -Date.parse(since) : 0],
};

// The alarms in an order; of those that are alike in it, by tag.
export function sortedBy(order, alarms, sinceOf) {
    if (order === "tag") {
        return alarms; // as the office lists them
    }
    const parts = new Map(alarms.map((alarm) => [alarm, PARTS[order](alarm, sinceOf(alarm))]));
    return [...alarms].sort((one, other) => {
        const [ones, others] = [parts.get(one), parts.get(other)];
        const place = ones.findIndex((value, at) => value !== others[at]);
        return place < 0 ? byTag(one, other) : ones[place] < others[place] ? -1 : 1;
    });
}

// Who took an alarm out of service, since when and why, as far as the page can know it: by what was done on this page, and by lines of the
// proxy's audit log, if the site offers them beside the page. No call of the office gives it.

import {plainMoment} from "./texts.js";

const LINES = "audit.jsonl"; // beside the page: lines of the audit log, the oldest first
const SELDOM = 60000; // milliseconds

const acts = new Map(); // by unit and tag: the last removal that is known
let askedAt = -Infinity;
let isOffered = true;

const keyOf = (unit, tag) => `${unit}/${tag}`;

export function rememberRemoval(unit, tag, act) {
    const known = acts.get(keyOf(unit, tag));
    if (!known || known.moment <= act.moment) {
        acts.set(keyOf(unit, tag), act);
    }
}

// What stands no longer is forgotten: who took an alarm out of service before it was placed in service again.
export function forgetRemovals(unit, alarms) {
    for (const [tag, {flags}] of alarms) {
        if (!flags.includes("O")) {
            acts.delete(keyOf(unit, tag));
        }
    }
}

const ACTION = /^POST \/units\/([A-Z0-9]+)\/alarms\/([A-Z0-9._-]+)\/(remove-from|place-in)-service$/;

function readLine(line) {
    try {
        const {moment, person, request, body, status} = JSON.parse(line);
        const found = ACTION.exec(request);
        if (!found || Number(status) !== 200) {
            return;
        }
        const [, unit, tag, action] = found;
        if (action === "remove-from") {
            rememberRemoval(unit, tag, {person: String(person), moment: String(moment), words: String(JSON.parse(body).words)});
        } else if (acts.get(keyOf(unit, tag))?.moment <= moment) {
            acts.delete(keyOf(unit, tag));
        }
    } catch {
        // not a line of the log
    }
}

// Asks for the lines once a minute, or at once; a site that has none is not asked again.
export async function askRemovals({atOnce = false} = {}) {
    if (!isOffered || (!atOnce && performance.now() - askedAt < SELDOM)) {
        return;
    }
    askedAt = performance.now();
    try {
        const answer = await fetch(new URL(LINES, location.origin + location.pathname), {cache: "no-store"});
        isOffered = answer.ok;
        if (answer.ok) {
            (await answer.text()).split("\n").forEach(readLine);
        }
    } catch {
        // the rounds say what is wrong
    }
}

// the last removal of an alarm that is known, or undefined
export const removalOf = (unit, tag) => acts.get(keyOf(unit, tag));

export function serviceText(unit, tag) {
    const act = removalOf(unit, tag);
    return act
        ? `out of service\nby ${act.person}, since ${plainMoment(act.moment)}: “${act.words}”`
        : "out of service\nNo call says who, since when and why. The audit log of the proxy has it, in its last line with "
            + `/units/${unit}/alarms/${tag}/remove-from-service: ask whoever keeps that log.`;
}

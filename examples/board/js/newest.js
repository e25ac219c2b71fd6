// How old the newest event of a unit is, so that a feed that is dead shows. No call of the office gives it: a site offers the file that
// `office feed --state` writes as feed-UNIT.json beside the page.

import {$, put, say} from "./elements.js";
import {here, isShut} from "./here.js";
import {clockText, dateText, hereText, isMoment, lengthText} from "./texts.js";
import {momentNow} from "./time.js";

const OFTEN = 15000; // milliseconds after which a file is read again
const SELDOM = 300000; // the same, of a file that is not there

const files = new Map(); // by unit: the moment of the newest event or null, and when the file was asked for

async function readFile(unit) {
    try {
        const answer = await fetch(new URL(`feed-${unit}.json`, location.origin + location.pathname), {cache: "no-store"});
        const {event} = answer.ok ? await answer.json() : {};
        return isMoment(String(event)) ? Date.parse(event) : null;
    } catch {
        return null;
    }
}

const unitsShown = () => (here.view === "several" ? here.several : isShut() ? [] : [here.unit]);

export async function askNewest() {
    for (const unit of unitsShown()) {
        const {moment = null, askedAt = -Infinity} = files.get(unit) ?? {};
        if (performance.now() - askedAt > (moment === null ? SELDOM : OFTEN)) {
            files.set(unit, {moment: await readFile(unit), askedAt: performance.now()});
        }
    }
    return showNewest;
}

// Of several units the one whose newest event is oldest.
export function showNewest() {
    const place = $("newest");
    const known = unitsShown().map((unit) => ({unit, moment: files.get(unit)?.moment ?? null})).filter(({moment}) => moment !== null);
    const now = momentNow();
    place.hidden = here.unit === null || now === null;
    if (place.hidden) {
        return;
    }
    if (known.length === 0) {
        say(place, "Last event: not known here");
        put(place, "class", null);
        return;
    }
    const {unit, moment} = known.reduce((one, other) => (one.moment <= other.moment ? one : other));
    const seconds = Math.max(0, now - moment) / 1000;
    const isToday = dateText(now) === dateText(moment);
    const age = lengthText(seconds < 60 ? seconds : seconds - (seconds % 60));
    const isTooOld = seconds > Number(place.dataset.limit);
    const of = here.view === "several" ? `${unit}: last` : "Last";
    const at = `${isToday ? "" : `${dateText(moment)} `}${clockText(moment).slice(0, 5)}${hereText(moment)}`;
    say(place, `${of} event ${at}, ${age} ago${isTooOld ? ". Does the feed run?" : ""}`);
    put(place, "class", isTooOld ? "caution" : null);
}

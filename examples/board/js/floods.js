// The floods of the last 24 hours, asked for once a minute.

import {$, make, say} from "./elements.js";
import {here, isShut} from "./here.js";
import {FLOOD_COLUMNS, askList} from "./lists.js";
import {minuteText, momentText} from "./texts.js";
import {momentNow} from "./time.js";

const SELDOM = 60000; // milliseconds
const PERIOD = 600000; // ten minutes, the periods of floods
const DAY = 86400000;
const BEGINS = 10; // a flood begins with more activations than these in a period

let asked = -Infinity;

export async function askFloods() {
    if (isShut() || here.view !== "alarms" || here.tag !== null || performance.now() - asked < SELDOM) {
        return null;
    }
    const until = Math.ceil((momentNow() + 1) / PERIOD) * PERIOD;
    const range = [until - DAY, until].map(momentText).join("/");
    const floods = await askList(`/units/${here.unit}/floods/${range}`, "FLOODS", FLOOD_COLUMNS, here.unit);
    return () => {
        asked = performance.now();
        showFloods(floods.rows, until);
    };
}

export function forgetFloods() {
    asked = -Infinity;
    $("flood-chart").replaceChildren();
    $("flood-lines").replaceChildren();
    say($("floods-title"), "Floods of the last 24 hours");
}

function showFloods(floods, end) {
    const begin = end - DAY;
    const place = (moment) => `${(100 * (moment - begin)) / DAY}%`;
    const top = Math.max(2 * BEGINS, ...floods.map((flood) => Number(flood.peak))) * 1.2;
    const parts = [];
    const line = make("div", "threshold", make("span", "", String(BEGINS)));
    line.style.bottom = `${(100 * BEGINS) / top}%`;
    parts.push(line);
    for (let hour = Math.ceil(begin / 7200000) * 7200000; hour <= end; hour += 7200000) {
        // every second of them is enough on a narrow page, and every fourth on a narrower one
        const kind = (hour / 7200000) % 2 === 1 ? "tick odd" : (hour / 14400000) % 2 === 0 ? "tick" : "tick even";
        const tick = make("div", kind, make("span", "", minuteText(hour)));
        tick.style.left = place(hour);
        parts.push(tick);
    }
    for (const flood of floods) {
        const [from, until] = [Date.parse(flood.begin), Date.parse(flood.until)];
        const bar = make("div", "flood", make("span", "", flood.peak));
        bar.style.left = place(from);
        bar.style.width = `${(100 * (until - from)) / DAY}%`;
        bar.style.height = `${(100 * Number(flood.peak)) / top}%`;
        parts.push(bar);
    }
    $("flood-chart").hidden = floods.length === 0;
    $("flood-note").hidden = floods.length === 0;
    $("flood-chart").replaceChildren(...parts);
    say($("floods-title"), `Floods of the last 24 hours: ${floods.length === 0 ? "none" : floods.length}`);
    $("flood-lines").replaceChildren(...floods.map((flood) => {
        const until = Date.parse(flood.until);
        const when = `${minuteText(Date.parse(flood.begin))} to ${until === end ? "now" : minuteText(until)}`;
        return make("li", "", make("b", "", when), `: ${flood.total} activations, peak ${flood.peak}`);
    }));
}

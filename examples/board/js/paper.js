// The alarms on paper: the whole lists as lines of text. A browser takes a minute to part thousands of drawn rows into sheets, and a few
// seconds for lines.

import {$, make} from "./elements.js";
import {here} from "./here.js";
import {whilePrinting} from "./looks.js";
import {isUnacknowledged} from "./marks.js";
import {STATES, leftText, lengthText, plainMoment} from "./texts.js";
import {momentNow} from "./time.js";

const stateText = (alarm) => (STATES.get(alarm.state) ?? alarm.state).padEnd(17);
const nameText = (alarm) => `${alarm.priority.padEnd(3)}${alarm.tag.padEnd(25)}`;

function shelfText({kind, end, person, words}) {
    const left = leftText((end - momentNow()) / 1000);
    return `\n   ${kind === "timed" ? "for a time" : "one-shot"}, ${left} left, by ${person}: “${words}”`;
}

const alarmLine = (alarm) => `${nameText(alarm)}${stateText(alarm)}${alarm.flags} ${lengthText(Number(alarm.limit))}`
    + (alarm.shelf ? shelfText(alarm.shelf) : "");
const standingLine = (alarm) => `${nameText(alarm)}${stateText(alarm)}${alarm.flags} ${plainMoment(alarm.since).slice(0, 16)}`;

// what is not acknowledged is bold; lines that are alike in that are one piece
function write(place, alarms, lineOf) {
    const pieces = [];
    for (const alarm of alarms) {
        const isLoud = isUnacknowledged(alarm);
        if (pieces.at(-1)?.isLoud !== isLoud) {
            pieces.push({isLoud, lines: []});
        }
        pieces.at(-1).lines.push(lineOf(alarm));
    }
    place.replaceChildren(...pieces.map(({isLoud, lines}) => make(isLoud ? "strong" : "span", "", `${lines.join("\n")}\n`)));
}

// What is drawn leaves the page meanwhile: also hidden it would be drawn for each sheet.
const drawn = [$("alarm-table"), $("standing")];
let seen = null; // what had the keyboard, and how far the page was scrolled

function takeAway() {
    seen = {node: document.activeElement, x: scrollX, y: scrollY};
    drawn.forEach((list) => list.remove());
}

function putBack() {
    if (seen !== null) {
        [$("alarm-paper"), $("standing-paper")].forEach((place, number) => place.before(drawn[number]));
        seen.node?.focus({preventScroll: true});
        scrollTo(seen.x, seen.y);
        seen = null;
    }
}

export function printLists(alarms, standing) {
    whilePrinting((isOnPaper) => {
        const isShown = isOnPaper && here.view === "alarms" && here.tag === null;
        write($("alarm-paper"), isShown ? alarms() : [], alarmLine);
        write($("standing-paper"), isShown ? standing() : [], standingLine);
        putBack();
        if (isOnPaper) {
            takeAway();
        }
    });
}

// What goes wrong, in one line with a button, and notices.

import {askAnew, waitingSeconds} from "./asking.js";
import {$, say} from "./elements.js";
import {here, isShut} from "./here.js";
import {askNow, outOfDate, secondsToNext} from "./rounds.js";
import {clockText} from "./texts.js";

const LONGEST_ROUND = 20000; // milliseconds after which lists are called old
const LONG = 3; // seconds that an answer takes before the page says so
let isWaiting = false; // whether the line is there because an answer takes long
let isSignedOff = false;
let refusedAt = -Infinity;

// Whether the lists are not being refreshed: there is a trouble, the unit gives no answers, or none came for a while.
export const areListsOld = () => !$("trouble").hidden || (isShut() && here.view !== "several")
    || performance.now() - here.listedAt > LONGEST_ROUND;

export function sayNotice(text) {
    say($("notice-words"), text);
    $("notice").hidden = text === "";
}

function showLine(words) {
    $("trouble").hidden = words === null;
    if (words !== null) {
        const old = here.answeredAt === null ? "" : ` The lists are those of ${clockText(here.answeredAt)}.`;
        say($("trouble-words"), words + old);
        say($("trouble-next"), "");
        say($("again"), isSignedOff ? "Sign on" : isWaiting ? "Ask anew" : "Ask now");
    }
}

// After a round: null if it went well. A role that has ended is found out at once.
export function showTrouble(words, name = "") {
    isWaiting = false;
    isSignedOff = name === "401";
    if (words === null) {
        here.listedAt = performance.now();
    } else {
        here.isUnitsDue = true;
        if (name === "NotGranted" && performance.now() - refusedAt > 20000) {
            refusedAt = performance.now();
            outOfDate();
            return;
        }
    }
    showLine(words);
}

// Each second.
export function showWaiting() {
    const seconds = Math.floor(waitingSeconds());
    if (seconds >= LONG && (isWaiting || $("trouble").hidden)) {
        isWaiting = true;
        showLine("The office has not answered yet. If the browser asks for your name and password, your sign-on has run out: sign on there.");
        say($("trouble-next"), `Waiting for ${seconds} s.`);
    } else if (isWaiting && seconds < LONG) {
        isWaiting = false;
        showLine(null);
    } else if (!$("trouble").hidden && !isWaiting) {
        const wait = secondsToNext();
        say($("trouble-next"), isSignedOff ? "" : wait > 0 ? `Asking again in ${wait} s.` : "Asking …");
    }
}

$("again").addEventListener("click", () => {
    here.isUnitsDue = true;
    if (isWaiting) {
        askAnew();
        outOfDate();
    } else {
        askNow();
    }
});
$("notice-close").addEventListener("click", () => sayNotice(""));

// Asking on and on: a round of requests each five seconds. Each part of a round asks in its turn and gives what shows its answers; they
// are shown together at the end, unless something has put the round out of date. A page that is not seen does not ask.

import {Trouble} from "./asking.js";

const ROUND = 5000; // milliseconds between two rounds
const LONGEST_PAUSE = 8000; // the longest pause, after errors: so the page is back within ten seconds of the office
const DAY = 86400000;

const parts = [];
let epoch = 0; // counts what makes a round that is under way out of date
let wake = () => {};
let nextBegin = 0;
let waiting = []; // for the end of a whole round

export const eachRound = (part) => parts.push(part);
export const secondsToNext = () => Math.ceil((nextBegin - performance.now()) / 1000);
export const askNow = () => wake();

export function outOfDate() {
    epoch += 1;
    wake();
}

// the end of the next whole round
export const nextRound = () => new Promise((resolve) => waiting.push(resolve));

function pause(milliseconds) {
    nextBegin = performance.now() + milliseconds;
    return new Promise((resolve) => {
        const timer = setTimeout(resolve, milliseconds);
        wake = () => {
            clearTimeout(timer);
            resolve();
        };
    });
}

async function round(begun) {
    const shows = [];
    for (const part of parts) {
        shows.push(await part());
        if (epoch !== begun) {
            return;
        }
    }
    shows.forEach((show) => show?.());
    waiting.forEach((resolve) => resolve());
    waiting = [];
}

// `trouble` gets the words of what went wrong and its name, and null after a round that went well. Without a sign-on the page asks only
// once somebody wants it: the browser would open its window for the password each time.
export async function askOn(trouble) {
    let wait = ROUND;
    for (;;) {
        while (document.hidden) {
            await pause(DAY);
        }
        const begun = epoch;
        try {
            await round(begun);
            if (epoch === begun) {
                wait = ROUND;
                trouble(null);
            }
        } catch (error) {
            if (epoch === begun) {
                wait = Math.min(2 * wait, LONGEST_PAUSE);
                trouble(error instanceof Trouble ? error.words : `The page is at fault: ${error.message}`, error.name);
                wait = error.name === "401" ? DAY : wait;
            }
        }
        if (epoch === begun) {
            await pause(wait);
            wait = wait === DAY ? ROUND : wait;
        }
    }
}

// The mark of an alarm, its flags, its state, its shelf: what several views show of one alarm.

import {make, put, say} from "./elements.js";
import {FLAGS, STATES, leftText} from "./texts.js";
import {momentNow} from "./time.js";

// A shape for each priority, grey at rest, coloured while the alarm asks for attention, hollow if it has returned.
const SHAPES = new Map([
    ["P1", {path: "M3 3H21V21H3Z", middle: 12}],
    ["P2", {path: "M12 2 23 21.5H1Z", middle: 15}],
    ["P3", {path: "M12 22 1 2.5H23Z", middle: 9}],
    ["P4", {path: "M12 2a10 10 0 1 0 0 20a10 10 0 1 0 0-20Z", middle: 12}],
    ["", {path: "M12 1.5 22.5 12 12 22.5 1.5 12Z", middle: 12}],
]);

export const isSuppressed = (alarm) => alarm.flags !== "---";
export const isUnacknowledged = (alarm) => ["Unacknowledged", "ReturnedUnack", "LatchedUnack"].includes(alarm.state);
const isActive = (alarm) => ["Unacknowledged", "Acknowledged"].includes(alarm.state);

// whether its mark is coloured
export const asksForAttention = (alarm) => alarm.state !== "Normal" && !isSuppressed(alarm);

// how an alarm's mark looks, as names for the style
function aspectsOf(alarm) {
    if (alarm.state === "Normal") {
        return [];
    }
    if (isSuppressed(alarm)) {
        return ["suppressed"];
    }
    return ["abnormal", isActive(alarm) ? "active" : "returned", ...(isUnacknowledged(alarm) ? ["unack"] : [])];
}

const priorityText = (priority) => (priority === "-" ? "–" : priority);

export function makeMark() {
    const svg = document.createElementNS("http://www.w3.org/2000/svg", "svg");
    svg.setAttribute("viewBox", "0 0 24 24");
    svg.setAttribute("aria-hidden", "true");
    const [whole, hole] = ["whole", "hole"].map((kind) => {
        const path = document.createElementNS("http://www.w3.org/2000/svg", "path");
        path.setAttribute("class", kind);
        svg.append(path);
        return path;
    });
    const letters = make("span", "letters");
    const node = make("span", "priority", svg, letters);
    const show = (alarm) => {
        const shape = SHAPES.get(alarm.priority) ?? SHAPES.get("");
        const middle = shape.middle;
        put(whole, "d", shape.path);
        put(hole, "d", shape.path);
        put(hole, "transform", `translate(12 ${middle}) scale(0.42) translate(-12 ${-middle})`);
        put(svg, "class", ["mark", SHAPES.has(alarm.priority) ? alarm.priority : "", ...aspectsOf(alarm)].join(" "));
        say(letters, priorityText(alarm.priority));
    };
    return {node, show};
}

// a mark at rest, for a priority alone
export const atRest = (priority) => ({priority, state: "Normal", flags: "---"});

export function makeFlags() {
    const chips = FLAGS.map(() => make("span"));
    const show = (alarm) => {
        FLAGS.forEach(([letter, meaning], number) => {
            const holds = alarm.flags[number] === letter;
            put(chips[number], "class", holds ? "flag" : "flag unset");
            put(chips[number], "title", holds ? meaning : "");
            say(chips[number], holds ? letter : "–");
        });
    };
    return {node: make("span", "flags", ...chips), show};
}

export function makeState() {
    const node = make("span", "state");
    const show = (alarm) => {
        put(node, "class", ["state", ...aspectsOf(alarm)].join(" "));
        say(node, STATES.get(alarm.state) ?? alarm.state);
    };
    return {node, show};
}

// who shelved, for how long still and why, with a part that runs down
export function makeShelf() {
    const how = make("span");
    const left = make("b", "left");
    const by = make("span");
    const words = make("q");
    const node = make("span", "shelf", how, left, by, words);
    const show = (shelf) => {
        say(how, shelf.kind === "timed" ? "for a time, " : "one-shot, at most ");
        running.set(left, shelf.end);
        runDown(left);
        say(by, ` left, by ${shelf.person}: `);
        say(words, shelf.words);
    };
    const end = () => running.delete(left);
    return {node, show, end};
}

const running = new Map(); // the parts that run down, each with the end of its shelf

function runDown(left) {
    say(left, leftText((running.get(left) - momentNow()) / 1000));
}

export function runAllDown() {
    for (const left of running.keys()) {
        if (left.isConnected) {
            runDown(left);
        } else {
            running.delete(left);
        }
    }
}

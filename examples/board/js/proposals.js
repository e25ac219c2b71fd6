// The list of the unit's changes, and the decision of one of them: to approve, to reject, to take back.

import {act} from "./acting.js";
import {moveBy} from "./alarms.js";
import {forgetChange, isOwn, showChange} from "./change.js";
import {decisionText, forgetChanges, setOnPage, standsOfChange, stateText, storeOf, titleOf} from "./changes.js";
import {$, fill, make, makeLink, put, say} from "./elements.js";
import {addressOf, here, holds} from "./here.js";
import {isOnPaper} from "./looks.js";
import {plainMoment} from "./texts.js";

const form = $("deciding");

// ---- The list

const changeList = {
    place: $("change-list"),
    skip: 0,
    rows: new Map(),
    make(number) {
        const link = makeLink("", `${number}`, addressOf(here.unit, "changes", number));
        const [title, state, by] = [make("b", "title"), make("span", "standing-of"), make("span", "by")];
        const node = make("li", "", make("span", "number", link), title, state, by);
        node.dataset.number = number;
        node.addEventListener("click", (event) => {
            if (event.target !== link && getSelection().isCollapsed) {
                link.click();
            }
        });
        const show = (change) => {
            say(title, titleOf(change));
            put(link, "aria-label", `${number}: ${titleOf(change)}, ${stateText(change)}`);
            say(state, change.state === "Proposed" && isOwn(change) && holds("Approver") ? "waits, yours" : stateText(change));
            put(state, "class", change.state === "Proposed" ? "standing-of waits" : "standing-of");
            say(by, change.state === "Proposed"
                ? `proposed by ${change.proposer}, ${plainMoment(change.proposed).slice(0, 16)}`
                : `by ${change.proposer}, ${decisionText(change).slice(0, -3)}`);
            put(node, "class", number === here.number ? "chosen" : "");
            put(link, "aria-current", number === here.number ? "true" : null);
        };
        return {node, show};
    },
};

const PAGE = 50; // how many lines are added at once
let wanted = PAGE; // how many lines there may be

// By number, by a part of the tag, or by the proposer. Several words have all to be found.
function isFound(change, words) {
    const texts = [String(change.number), ...[titleOf(change), change.proposer, stateText(change)].map((text) => text.toLowerCase())];
    return words.every((word) => texts.some((text, place) => (place === 0 ? text === word.replace(/^#/, "") : text.includes(word))));
}

export function showChanges() {
    if (here.view !== "changes" || here.unit === null) {
        return;
    }
    const {known, last, isCounted, isOldestFirst} = storeOf(here.unit);
    const seen = [...known.values()].sort((one, other) => (isOldestFirst ? 1 : -1) * (one.number - other.number));
    const words = $("find-change").value.trim().toLowerCase().split(/\s+/).filter(Boolean);
    const state = $("show-changes").value;
    const found = seen.filter((change) => (state === "" || change.state === state) && isFound(change, words));
    const shown = found.slice(0, isOnPaper() ? Infinity : wanted);
    fill(changeList, shown, (change) => change.number);
    setOnPage(shown.map((change) => change.number));
    const waiting = seen.filter((change) => change.state === "Proposed").length;
    const isAll = isCounted && seen.length >= last;
    say($("changes-title"), isCounted ? `Proposals: ${isAll ? "" : "at least "}${waiting} waiting` : "Proposals");
    say($("changes-note"), noteOf({isCounted, isAll, last, seen, found, shown, isSearch: words.length > 0 || state !== ""}));
    $("more").hidden = shown.length === found.length;
    showChange();
}

function noteOf({isCounted, isAll, last, seen, found, shown, isSearch}) {
    if (!isCounted) {
        return "Asking for the changes…";
    }
    if (last === 0) {
        return "Nothing was proposed in this unit.";
    }
    const looked = isAll
        ? `All ${last} changes were looked at.`
        : `${seen.length} of ${last} changes were looked at; the page looks on.`;
    const matching = isSearch ? ` ${found.length} of them match.` : "";
    return looked + matching + (shown.length < found.length ? ` The first ${shown.length} are shown.` : "");
}

// Another search, another order: from the top.
function showAnew() {
    wanted = PAGE;
    showChanges();
}

export function forgetProposals() {
    fill(changeList, []);
    setOnPage([]);
    wanted = PAGE;
    $("find-change").value = "";
    $("show-changes").value = "";
    $("order").value = here.unit !== null && storeOf(here.unit).isOldestFirst ? "oldest" : "newest";
    say($("changes-title"), "Proposals");
    forgetChange();
}

export function focusChange(number) {
    changeList.rows.get(number)?.node.querySelector("a").focus();
}

// ---- The decision

const isForCaller = (change) => change.state === "Proposed" && holds(isOwn(change) ? "Engineer" : "Approver");

// After a decision the keyboard goes to the next proposal of the list that the caller may decide, else to the one that was decided.
function focusNext(number) {
    const numbers = [...changeList.place.children].map((node) => Number(node.dataset.number));
    const place = numbers.indexOf(number);
    const next = [...numbers.slice(place + 1), ...numbers.slice(0, Math.max(0, place))]
        .find((each) => each !== number && isForCaller(storeOf(here.unit).known.get(each)));
    if (next === undefined) {
        $("change-title").focus();
    } else {
        focusChange(next);
    }
}

async function decide(action, done) {
    const {unit, number} = here;
    const accepted = await act(form, {
        subject: `change ${number}`,
        path: `/units/${unit}/changes/${number}/${action}`,
        done: () => `Change ${number} is ${done}.`,
        stands: () => standsOfChange(unit, number),
    });
    if (accepted && here.unit === unit && here.number === number && form.contains(document.activeElement)) {
        focusNext(number);
    }
    forgetChanges();
}

form.addEventListener("submit", (event) => event.preventDefault());
$("approve").addEventListener("click", () => decide("approve", "approved and in force"));
$("reject").addEventListener("click", () => decide("reject", "rejected"));
$("withdraw").addEventListener("click", () => decide("withdraw", "taken back"));
$("change-list").addEventListener("keydown", moveBy);
$("find-change").addEventListener("input", showAnew);
$("show-changes").addEventListener("change", showAnew);
$("order").addEventListener("change", () => {
    storeOf(here.unit).isOldestFirst = $("order").value === "oldest";
    showAnew();
});
$("more").addEventListener("click", () => {
    wanted += PAGE;
    showChanges();
});

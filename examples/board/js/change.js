// One change whole, with what is in force beside it, and the priorities that come of it.

import {getUnless} from "./asking.js";
import {decisionText, matrixInForce, stateText, storeOf, titleOf} from "./changes.js";
import {$, make, makeFacts, makeLink, put, say, sayAnswer, showFact} from "./elements.js";
import {makeGrid} from "./grid.js";
import {addressOf, here, holds, isShut} from "./here.js";
import {compareRecords, makeComparedList, makeOffer, makePrice, priceOf} from "./pricing.js";
import {isTag, plainMoment, secondsText} from "./texts.js";

const form = $("deciding");
export const isOwn = (change) => change.proposer === here.person;

const facts = makeFacts($("change-facts"), ["State", "Alarm", "Proposed", "Decided", "Base"]);
const alarmLink = makeLink("", "", "");
facts.Alarm.append(alarmLink);
const NAMES = new Map([
    ["severity", "Severity"], ["response", "Time to respond"], ["cause", "Cause"], ["consequence", "Consequence"], ["action", "Action"],
    ["max", "Limit"],
]);
const isTime = (name) => ["response", "max"].includes(name);
const valueText = (name, value) => (value === undefined ? "–" : isTime(name) ? secondsText(value) : String(value));

let inForce = null; // what stands now of the alarm of the change that is shown: its number, the revision and the content
let shownAs = ""; // what the content was built of
let answeredFor = null; // the unit and the change that the form's answer is of

// Of a record or a limit that waits, what is in force is asked for in each round.
export async function askInForce() {
    const {unit, view, number} = here;
    const change = view === "changes" && number !== null && !isShut() ? storeOf(unit).known.get(number) : undefined;
    let found = null;
    if (change?.state === "Proposed" && isTag(change.tag ?? "")) {
        const path = `/units/${unit}/alarms/${change.tag}`;
        if (change.kind === "limit") {
            const alarm = await getUnless("AlarmUnknown", path);
            found = alarm && {number, revision: alarm.limit_revision, content: {max: alarm.limit}};
        } else {
            const record = await getUnless("RecordUnknown", `${path}/record`);
            found = {number, revision: record?.revision ?? 0, content: record ?? {}, record};
        }
    }
    return () => {
        inForce = found;
    };
}

export function forgetChange() {
    shownAs = "";
    $("change").hidden = true;
}

function makeRow(name, ...cells) {
    const title = make("th", "", name);
    title.scope = "row";
    return make("tr", "", title, ...cells);
}

// The priority by the matrix in force: of the record that is in force, and of the one that is proposed.
function makePriorities(before, price) {
    const old = before.record ? makePrice({priority: before.record.priority, words: ""}) : "–";
    const isSame = !price.isKnown || before.record?.priority === price.priority;
    return makeRow("Priority", make("td", "old", old), make("td", isSame ? "" : "differs", makePrice(price)));
}

function makeComparison(change, before, price) {
    const names = [...NAMES.keys()].filter((name) => name in change.content);
    const head = (text) => {
        const cell = make("th", "", text);
        cell.scope = "col";
        return cell;
    };
    const corner = make("td", "");
    const heads = before ? [corner, head(`In force, revision ${before.revision}`), head("Proposed")] : [corner, head("Proposed")];
    const rows = names.map((name) => {
        const own = valueText(name, change.content[name]);
        const old = before && valueText(name, before.content[name]);
        return makeRow(NAMES.get(name), ...before
            ? [make("td", "old", old), make("td", own === old ? "" : "differs", own)]
            : [make("td", "", own)]);
    });
    const body = make("tbody", "", ...price ? [makePriorities(before, price)] : [], ...rows);
    return make("table", "comparison", make("thead", "", make("tr", "", ...heads)), body);
}

// What the content is shown of; it is built anew once any of this is another.
function partsOf(unit, change) {
    const isWaiting = change.state === "Proposed";
    if (change.kind === "matrix") {
        const matrix = matrixInForce(unit);
        return {before: isWaiting ? matrix : null, compared: isWaiting ? compareRecords(unit, change.content) : null, price: null};
    }
    const before = isWaiting && inForce?.number === change.number ? inForce : null;
    return {before, compared: null, price: before && change.kind === "record" ? priceOf(unit, change.content, before.record) : null};
}

function showContent(unit, change, {before, compared, price}) {
    const built = JSON.stringify([unit, change, before, compared, price, price && matrixInForce(unit)?.content === null, holds("Engineer")]);
    if (built === shownAs) {
        return;
    }
    shownAs = built;
    const parts = change.kind === "matrix"
        ? [makeGrid(change.content, before?.content, compared?.counts), compared ? makeComparedList(unit, compared) : ""]
        : [makeComparison(change, before, price), price ? makeOffer(unit) : ""];
    $("change-content").replaceChildren(...parts);
}

export function showChange() {
    const {unit, number} = here;
    here.isComparing = false;
    $("change").hidden = number === null;
    $("change-hint").hidden = number !== null;
    if (number === null) {
        return;
    }
    const store = storeOf(unit);
    const change = store.known.get(number);
    say($("change-title"), change ? `Change ${number}: ${titleOf(change)}` : `Change ${number}`);
    put($("change-close"), "href", addressOf(unit, "changes"));
    $("change-missing").hidden = change !== undefined;
    say($("change-missing"), store.isCounted ? "The unit has no change of this number." : "Asking the office…");
    for (const id of ["change-facts", "change-content", "deciding"]) {
        $(id).hidden = change === undefined;
    }
    if (answeredFor !== `${unit}/${number}` && !form.hasAttribute("data-busy")) {
        answeredFor = `${unit}/${number}`;
        sayAnswer(form, "", "");
    }
    if (!change) {
        return;
    }
    const isWaiting = change.state === "Proposed";
    say(facts.State, stateText(change));
    facts.Alarm.parentElement.hidden = change.tag === null;
    say(alarmLink, change.tag ?? "");
    put(alarmLink, "href", addressOf(unit, change.tag ?? ""));
    say(facts.Proposed, `by ${change.proposer}, ${plainMoment(change.proposed)}`);
    showFact(facts.Decided, isWaiting ? null : decisionText(change));
    say(facts.Base, `revision ${change.base}`);

    const parts = partsOf(unit, change);
    const {before} = parts;
    here.isComparing ||= parts.compared !== null;
    showContent(unit, change, parts);
    const isBehind = before !== null && before.revision !== change.base;
    $("behind").hidden = !isBehind;
    say($("behind"), isBehind ? `Revision ${before.revision} is in force meanwhile, so the office will refuse to approve this.` : "");

    const own = isOwn(change);
    $("own").hidden = !(isWaiting && own && holds("Approver"));
    $("approve").hidden = $("reject").hidden = !(isWaiting && !own && holds("Approver"));
    // until the page knows what the record comes to, or that no call says it
    $("approve").disabled = isWaiting && change.kind === "record" && (parts.price === null || parts.price.isLooking === true);
    $("withdraw").hidden = !(isWaiting && own && holds("Engineer"));
}

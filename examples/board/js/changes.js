// The unit's changes. The office lists none, so they are asked for by number: the last number by doubling and halving, the last twenty,
// and then, while the page is idle, all others, the newest first or, if the list begins with the oldest, the oldest first.

import {getUnless} from "./asking.js";
import {here, isShut} from "./here.js";
import {makeIdle} from "./idle.js";
import {plainMoment} from "./texts.js";

const PAGE = 20; // how many are asked for before they are shown
const SOON = 8000; // milliseconds after which matrices that wait are asked for anew
const SELDOM = 60000; // milliseconds after which those that wait are asked for anew, if they are on the page
const SELDOMER = 300000; // and all others

const stores = new Map(); // by unit

export function storeOf(unit) {
    if (!stores.has(unit)) {
        stores.set(unit, {known: new Map(), askedAt: new Map(), last: 0, isCounted: false, forgotten: -Infinity, isOldestFirst: false});
    }
    return stores.get(unit);
}

// Those that wait and are on the page are asked for anew in the next round, also if one is under way.
export function forgetChanges() {
    stores.forEach((store) => {
        store.forgotten = performance.now();
    });
}

async function askChange(unit, number) {
    const store = storeOf(unit);
    const begun = performance.now();
    const change = await getUnless("ChangeUnknown", `/units/${unit}/changes/${number}`);
    if (change) {
        store.known.set(number, change);
        store.askedAt.set(number, begun);
    }
    return change;
}

// The greatest number, from one that is known or 0: doubles the step until there is no such change, and then halves what lies between.
async function findLast(unit) {
    const store = storeOf(unit);
    let step = 1;
    while (await askChange(unit, store.last + step)) {
        store.last += step;
        step *= 2;
    }
    let none = store.last + step;
    while (none - store.last > 1) {
        const middle = Math.floor((store.last + none) / 2);
        if (await askChange(unit, middle)) {
            store.last = middle;
        } else {
            none = middle;
        }
    }
    store.isCounted = true;
    return store.last;
}

const isOld = (store, number, age, forgotten = store.forgotten) => {
    const asked = store.askedAt.get(number);
    return store.known.get(number).state === "Proposed" && (performance.now() - asked >= age || forgotten >= asked);
};

// Whether changes are looked at: in their views, and where an engineer has a record in hand.
const areWanted = () => !isShut() && (["changes", "matrix"].includes(here.view) || here.isPricing);

let onPage = []; // the numbers that are on the page
export const setOnPage = (numbers) => {
    onPage = numbers;
};

// One part of a round.
export async function askChanges() {
    const {unit, number} = here;
    if (!areWanted()) {
        return null;
    }
    const store = storeOf(unit);
    await findLast(unit);
    const newest = [...Array(Math.min(PAGE, store.last)).keys()].map((back) => store.last - back);
    const matrices = [...store.known.values()].filter((change) => change.kind === "matrix").map((change) => change.number);
    const due = [
        ...onPage.filter((each) => store.known.has(each) && isOld(store, each, SELDOM)),
        ...matrices.filter((each) => isOld(store, each, SOON)), // the priorities come of them
    ];
    for (const each of new Set([...newest.filter((every) => !store.known.has(every)), ...due])) {
        if (here.unit !== unit || !areWanted()) {
            return null;
        }
        await askChange(unit, each);
    }
    if (number !== null && number <= store.last && (store.known.get(number)?.state ?? "Proposed") === "Proposed") {
        await askChange(unit, number);
    }
    return null;
}

// ---- All others, while the page is idle

function* stillToSee(store) {
    for (let step = 0; step < store.last; step += 1) {
        const number = store.isOldestFirst ? step + 1 : store.last - step;
        if (!store.known.has(number) || isOld(store, number, SELDOMER, -Infinity)) {
            yield number;
        }
    }
}

export const lookOn = makeIdle({
    isWanted: areWanted,
    missing: (unit) => stillToSee(storeOf(unit)),
    ask: askChange,
    orderOf: (unit) => storeOf(unit).isOldestFirst,
});

// The matrix in force, as far as the changes that were seen say: null while older ones have to be looked at. One that the unit was
// opened with has revision 0, and no call gives its cells.
export function matrixInForce(unit) {
    const {known, last, isCounted} = storeOf(unit);
    if (!isCounted) {
        return null;
    }
    for (let number = last; number >= 1; number -= 1) {
        const change = known.get(number);
        if (!change) {
            return null;
        }
        if (change.kind === "matrix" && change.state === "Approved") {
            return {revision: change.base + 1, content: change.content, number};
        }
    }
    return {revision: 0, content: null, number: null};
}

export function titleOf(change) {
    const kind = new Map([["record", "Record"], ["matrix", "Matrix"], ["limit", "Limit"]]).get(change.kind) ?? change.kind;
    return change.tag === null ? kind : `${kind} of ${change.tag}`;
}

const STATES = new Map([["Proposed", "waits"], ["Approved", "approved"], ["Rejected", "rejected"], ["Withdrawn", "taken back"]]);
export const stateText = (change) => STATES.get(change.state) ?? change.state;

export function decisionText(change) {
    return change.decider === null ? "" : `${stateText(change)} by ${change.decider}, ${plainMoment(change.decided)}`;
}

// ---- What stands, for answers that were lost

export async function standsOfChange(unit, number) {
    const change = await askChange(unit, number);
    if (change === null) {
        return "there is no such change.";
    }
    return change.state === "Proposed" ? `change ${number} waits for a decision.` : `change ${number} is ${decisionText(change)}.`;
}

// whether a proposal like this one, of the caller's, is among the last
export async function standsOfProposal(unit, body) {
    const last = await findLast(unit);
    for (let number = last; number > Math.max(0, last - PAGE); number -= 1) {
        const change = await askChange(unit, number);
        const isLike = change.proposer === here.person && change.kind === body.kind && change.base === body.base
            && change.tag === (body.tag ?? null)
            && Object.entries(change.content).every(([name, value]) => JSON.stringify(value) === JSON.stringify(body[name]));
        if (isLike) {
            return `change ${number} of yours, of ${plainMoment(change.proposed)}, is such a proposal: it ${
                change.state === "Proposed" ? "waits for a decision" : `was ${stateText(change)}`}.`;
        }
    }
    return "none of the last changes is such a proposal of yours.";
}

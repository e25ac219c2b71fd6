// The caller and the units. Also if GET /units is refused, because one unit's last moment lies ahead: then the units that the page knows
// are asked one by one, and those that answer go on.

import {Trouble, get} from "./asking.js";
import {$, say} from "./elements.js";
import {here, readAddress} from "./here.js";
import {MINE_COLUMNS, askList} from "./lists.js";
import {isUnit, plainMoment} from "./texts.js";

const SELDOM = 60000; // milliseconds; the caller's units and name are asked for once in this time
const PLACE = "shelfoffice-units"; // where the browser keeps the units that were answered last
let unitsAsked = -Infinity;

function remember(person, units) {
    try {
        localStorage.setItem(PLACE, JSON.stringify({person, units}));
    } catch {
        // a browser that keeps nothing
    }
}

// what the browser keeps of whoever signs off
export function forgetUnits() {
    try {
        localStorage.removeItem(PLACE);
    } catch {
        // a browser that keeps nothing
    }
}

// The units of this visit, else those that the browser keeps, and that of the address.
function knownUnits() {
    let kept = {person: here.person, units: here.units};
    if (kept.units.length === 0) {
        try {
            kept = JSON.parse(localStorage.getItem(PLACE)) ?? kept;
        } catch {
            // none are kept
        }
    }
    const {unit} = readAddress(location.hash);
    const isNew = isUnit(unit) && !kept.units.some((held) => held.unit === unit);
    return {person: kept.person, units: [...kept.units, ...isNew ? [{unit, roles: []}] : []]};
}

async function askOne() {
    const person = (await askList("/shelves", "MINE", MINE_COLUMNS)).whose;
    const {units} = await get("/units");
    Object.assign(here, {person, units, ahead: new Map()});
    remember(person, units);
}

async function askOneByOne(moment) {
    const {person, units} = knownUnits();
    const going = [];
    const ahead = new Map();
    for (const held of units) {
        try {
            await get(`/units/${held.unit}/changes/1`);
            going.push(held);
        } catch (error) {
            if (error.name === "MomentBehind") {
                going.push(held);
                ahead.set(held.unit, String(error.value));
            } else if (error.name === "ChangeUnknown") {
                going.push(held);
            } else if (error.name !== "NotGranted") {
                throw error;
            }
        }
    }
    if (going.length === 0) {
        throw new Trouble(`A unit of yours has its last change at ${plainMoment(moment)}, which lies ahead. The page knows no other unit of `
            + "yours: put its code into the address, as #U1.", "MomentBehind");
    }
    Object.assign(here, {person, units: going, ahead});
    const names = ahead.size === 0 ? "A unit that the page does not know" : [...ahead.keys()].join(", ");
    const last = ahead.size === 0 ? moment : [...ahead.values()].sort().at(-1);
    return `${names}: the last change is of ${plainMoment(last)}, which lies ahead, so the office refuses all calls until then. `
        + `${going.length > ahead.size ? "The other units go on. " : ""}Tell the administrator: a clock was wrong.`;
}

// ---- Several offices, each asked for its own units

const BRIEF = 3000; // milliseconds that an office is waited for, if there are several
const PAUSE = 15000; // milliseconds after which one that did not answer is asked again
const parts = new Map(); // by office: the units that it answered last, and when it failed

async function askOffice(office) {
    const part = parts.get(office) ?? parts.set(office, {units: [], failed: null, words: ""}).get(office);
    if (part.failed !== null && performance.now() - part.failed < PAUSE) {
        return null;
    }
    try {
        const person = (await askList(`/offices/${office}/shelves`, "MINE", MINE_COLUMNS, undefined, BRIEF)).whose;
        const {units} = await get(`/offices/${office}/units`, BRIEF);
        Object.assign(part, {units, failed: null, words: ""});
        return person;
    } catch (error) {
        if (error.name === "401" || error.words === undefined) {
            throw error;
        }
        Object.assign(part, {failed: performance.now(), words: error.words});
        return null;
    }
}

// The units of all offices by their code. What is said of those that do not answer; if none does, this is the trouble.
async function askOffices() {
    const people = [];
    for (const office of here.offices) {
        people.push(await askOffice(office));
    }
    const down = here.offices.filter((office) => parts.get(office).failed !== null);
    if (down.length === here.offices.length) {
        throw new Trouble(`None of the offices ${down.join(", ")} answers.`, "", {lost: true});
    }
    const held = new Map();
    for (const {unit, roles} of here.offices.flatMap((office) => parts.get(office).units)) {
        held.set(unit, {unit, roles: [...new Set([...held.get(unit)?.roles ?? [], ...roles])]});
    }
    const units = [...held.values()].sort((one, other) => (one.unit < other.unit ? -1 : 1));
    Object.assign(here, {person: people.find((person) => person) ?? here.person, units, ahead: new Map()});
    return down.map((office) => `The office ${office}: ${parts.get(office).words} Its units are those that it gave last.`).join(" ");
}

// One part of a round; `show` shows the units that were answered.
export async function askUnits(show) {
    if (!here.isUnitsDue && performance.now() - unitsAsked < SELDOM) {
        return null;
    }
    let words = "";
    here.offices = readAddress(location.hash).offices;
    try {
        if (here.offices.length > 0) {
            words = await askOffices();
        } else {
            await askOne();
        }
    } catch (error) {
        if (error.name !== "MomentBehind") {
            throw error;
        }
        words = await askOneByOne(String(error.value));
    }
    unitsAsked = performance.now();
    here.isUnitsDue = [...parts.values()].some((part) => part.failed !== null) && here.offices.length > 0;
    say($("ahead-words"), words);
    $("ahead").hidden = words === "";
    show();
    return null;
}

// The list to choose from. A unit in which the roles have ended stays in it while it is shown.
export function showUnits() {
    const codes = here.units.map((held) => held.unit);
    const listed = here.hasEnded ? [...codes, here.unit] : codes;
    if ([...$("unit").options].map((option) => option.value).join() !== listed.join()) {
        $("unit").replaceChildren(...listed.map((code) => new Option(codes.includes(code) ? code : `${code}, ended`, code)));
    }
    $("unit").value = here.unit ?? "";
    $("unit-label").dataset.unit = here.unit ?? ""; // on paper
    $("stranger").hidden = here.person === "" || here.unit !== null;
    say($("stranger-name"), here.person);
}

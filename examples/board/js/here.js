// What the page knows: who calls, what is shown, and the unit's alarms as they were last answered. And the addresses of what is shown:
// #U1, #U1/PT-101, #U1/changes, #U1/changes/7, #U1/matrix, #U1/register, #U1/import, #U1/roles, and #units=U1,U2. A tag has no small
// letters. A plant with several offices behind one proxy puts #offices=A,B/ before each of these.

export const here = {
    person: "", // the caller's name
    units: [], // the caller's, as GET /units gives them
    unit: null, // the code of the one that is shown
    hasEnded: false, // whether the caller's roles in it have ended since it is shown
    kept: new Set(), // roles in it that have ended since what is shown was opened: its forms stay
    ahead: new Map(), // the units whose last moment lies ahead, with that moment
    view: "alarms",
    tag: null, // of the alarm that is shown whole
    number: null, // of the change that is shown whole
    offices: [], // the names of the offices that are asked for units, if the address names them
    several: [], // the codes of the units that are shown side by side
    alarms: new Map(), // by tag, each with its shelf
    standing: new Map(), // the moments since which alarms are active, by tag
    answeredAt: null, // the moment of the last whole round
    listedAt: -Infinity, // when the page got it, by the clock of the browser
    isPricing: false, // whether the priority of a record that is being drawn up is looked for
    isComparing: false, // whether a matrix is compared with the records in force
    isUnitsDue: true, // whether the units are asked for in the next round, because roles may have changed
};

// the views, each with the role that its work needs; anyone may look at the first two
export const VIEWS = new Map([
    ["alarms", null],
    ["changes", null],
    ["matrix", "Engineer"],
    ["register", "Engineer"],
    ["import", "Operator"],
    ["roles", "Steward"],
    ["several", null],
]);

export const rolesHeld = () => here.units.find((held) => held.unit === here.unit)?.roles ?? [];
export const holds = (role) => rolesHeld().includes(role);
export const keeps = (role) => holds(role) || here.kept.has(role); // for what is open already
export const maySee = (view, has = holds) => VIEWS.get(view) === null || has(VIEWS.get(view));

// whether the unit answers at all
export const isShut = () => here.unit === null || here.hasEnded || here.ahead.has(here.unit);

const officesPart = () => (here.offices.length === 0 ? "" : `offices=${here.offices.join()}/`);
export const addressOf = (...parts) => `#${officesPart()}${parts.join("/")}`;

const isOffice = (name) => /^[A-Za-z0-9-]{1,32}$/.test(name);
const namesIn = (text) => [...new Set(text.split(",").filter(Boolean))];

function readPlace(text) {
    if (text.startsWith("units=")) {
        return {unit: "", view: "several", tag: null, number: null, units: namesIn(text.slice(6))};
    }
    const [unit, what = "", ...more] = text.split("/");
    const address = {unit, view: "alarms", tag: null, number: null};
    if (VIEWS.has(what) && what !== "several") {
        address.view = what;
        address.number = what === "changes" && /^[1-9]\d{0,4}$/.test(more[0] ?? "") ? Number(more[0]) : null;
    } else if (what !== "") {
        address.tag = [what, ...more].join("/");
    }
    return address;
}

export function readAddress(hash) {
    let text = hash.slice(1);
    try {
        text = decodeURIComponent(text);
    } catch {
        // taken as it stands
    }
    const found = /^offices=([^/]*)(?:\/(.*))?$/s.exec(text);
    const offices = found === null ? [] : namesIn(found[1]).filter(isOffice);
    return {offices, ...readPlace(found === null ? text : found[2] ?? "")};
}

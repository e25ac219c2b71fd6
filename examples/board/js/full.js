// The units of the plant and how full they are, for whoever holds no role: the administrator. No call gives them. A site may offer what
// `office full BACKUP --json` prints as full.json beside the page.

import {$, make} from "./elements.js";
import {here} from "./here.js";
import {momentText, plainMoment} from "./texts.js";

const OFTEN = 60000; // milliseconds after which the file is read again
let askedAt = -Infinity;
let shownAs = "";

const counted = ({count, most, full}) => {
    const share = `${count.toLocaleString("en")} of ${most.toLocaleString("en")} (${Math.floor(100 * count / most)} %)`;
    return count >= most ? `${share}, FULL` : full ? `${share}, full ${full}` : share;
};

function makeTable(units) {
    const names = Object.values(units)[0].map((level) => String(level.what));
    const head = make("tr", "", ...["unit", ...names].map((name) => make("th", "", name)));
    const rows = Object.entries(units).map(([unit, levels]) => make("tr", "", make("th", "", unit), ...levels.map((level) => make("td", "", counted(level)))));
    return make("table", "comparison", make("thead", "", head), make("tbody", "", ...rows));
}

async function readFile() {
    try {
        const answer = await fetch(new URL("full.json", location.origin + location.pathname), {cache: "no-store"});
        const units = answer.ok ? await answer.json() : {};
        return {units, of: Date.parse(answer.headers.get("Last-Modified"))};
    } catch {
        return {units: {}, of: NaN};
    }
}

export async function askFull() {
    if (here.unit !== null || here.person === "" || performance.now() - askedAt < OFTEN) {
        return null;
    }
    askedAt = performance.now();
    const {units, of} = await readFile();
    return () => {
        const text = JSON.stringify([units, of]);
        $("full").hidden = Object.keys(units).length === 0;
        if (text !== shownAs && !$("full").hidden) {
            shownAs = text;
            const moment = Number.isNaN(of) ? "" : `, of ${plainMoment(momentText(of))} UTC`;
            $("full-note").textContent = `By the newest backup that the site has counted${moment}.`;
            $("full-table").replaceChildren(makeTable(units));
        }
    };
}

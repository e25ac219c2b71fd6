// Who may do what. The office lists no roles, so this is a form, and a list of what was done with it since the page was opened.

import {act} from "./acting.js";
import {get} from "./asking.js";
import {$, areRight, make, say, sayAnswer} from "./elements.js";
import {here} from "./here.js";
import {outOfDate} from "./rounds.js";
import {PERSON_WANTED, clockText, isMoment, isPerson, plainMoment} from "./texts.js";
import {momentNow} from "./time.js";

const form = $("roles");

// An end as it was typed, as the office takes it: null without one, undefined if it is not a moment.
function endOf(text) {
    if (text.trim() === "") {
        return null;
    }
    const found = /^(\d{4}-\d\d-\d\d)[ T](\d\d:\d\d)(:\d\d)?Z?$/.exec(text.trim());
    const moment = found && `${found[1]}T${found[2]}${found[3] ?? ":00"}Z`;
    return moment && isMoment(moment) ? moment : undefined;
}

async function standsOf(unit, person, role) {
    if (person !== here.person) {
        return "no call says who holds a role. Ask for it again: the office refuses what is so already.";
    }
    const held = (await get("/units")).units.find((each) => each.unit === unit)?.roles ?? [];
    return held.includes(role) ? `you hold ${role} in ${unit}.` : `you do not hold ${role} in ${unit}.`;
}

async function call(action) {
    const person = $("grantee").value.trim();
    const role = $("role").value;
    const isGrant = action === "grants";
    const end = isGrant && role !== "Steward" ? endOf($("end").value) : null;
    const isAhead = !end || momentNow() === null || Date.parse(end) > momentNow();
    const isRight = areRight(form, [
        [$("grantee"), isPerson(person), `${person || "Nothing"} is not a person's name: ${PERSON_WANTED}.`],
        [$("end"), end !== undefined && isAhead, end === undefined
            ? "The end is a moment in UTC, as 2026-03-01 12:00, or nothing."
            : "The end has to lie ahead."],
    ]);
    if (!isRight) {
        return;
    }
    const {unit} = here;
    const until = end ? `until ${plainMoment(end)}` : "without an end";
    const done = isGrant ? `${person} is ${role} in ${unit}, ${until}.` : `${person} is no longer ${role} in ${unit}.`;
    const body = isGrant && end ? {person, role, end} : {person, role};
    const accepted = await act(form, {
        subject: `${role} for ${person}`,
        path: `/units/${unit}/${action}`,
        body: JSON.stringify(body),
        done: () => done,
        stands: () => standsOf(unit, person, role),
    });
    here.isUnitsDue = true;
    outOfDate();
    if (accepted) {
        $("done-list").prepend(make("li", "", make("time", "", momentNow() === null ? "" : clockText(momentNow())), ` ${done}`));
        $("done").hidden = false;
        $("end").value = "";
        showEnd();
    }
}

function showEnd() {
    const isSteward = $("role").value === "Steward";
    const end = isSteward ? null : endOf($("end").value);
    $("end").disabled = isSteward;
    const words = end ? `until ${plainMoment(end)} UTC` : end === null ? "without an end" : "";
    say($("end-words"), isSteward ? "A steward's role has no end." : words);
}

export function forgetRoles() {
    form.reset();
    sayAnswer(form, "", "");
    showEnd();
}

form.addEventListener("submit", (event) => {
    event.preventDefault();
    call("grants");
});
$("withdraw-role").addEventListener("click", () => call("withdrawals"));
$("role").addEventListener("change", showEnd);
$("end").addEventListener("input", showEnd);

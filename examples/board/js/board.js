// The alarm board; README.md says what it is. What is shown follows the address.

import {changeAlarm, askAlarm} from "./alarm.js";
import {askAlarms, focusAlarm, forgetAlarms, showAlarms} from "./alarms.js";
import {askInForce} from "./change.js";
import {askChanges, forgetChanges, lookOn} from "./changes.js";
import {$, make, put, say} from "./elements.js";
import {askFloods, forgetFloods} from "./floods.js";
import "./focus.js";
import {askFull} from "./full.js";
import {VIEWS, addressOf, here, keeps, maySee, readAddress, rolesHeld} from "./here.js";
import {forgetFile, showImport} from "./import.js";
import "./keys.js";
import {whilePrinting} from "./looks.js";
import {runAllDown} from "./marks.js";
import {forgetMatrix, showMatrix} from "./matrix.js";
import {askNewest, showNewest} from "./newest.js";
import {focusChange, forgetProposals, showChanges} from "./proposals.js";
import {lookAtRecords} from "./pricing.js";
import {showPrice} from "./record.js";
import "./register.js";
import {forgetRoles} from "./roles.js";
import {askNow, askOn, eachRound, outOfDate} from "./rounds.js";
import {askSeveral, forgetSeveral, showSeveral} from "./several.js";
import {showSignOff} from "./signing.js";
import {clockText, dateText, hereText} from "./texts.js";
import {momentNow} from "./time.js";
import {areListsOld, sayNotice, showTrouble, showWaiting} from "./trouble.js";
import {askUnits, showUnits} from "./units.js";
import {showUntil} from "./work.js";

// ---- The address

const SECTIONS = {
    alarms: ["alarms"],
    changes: ["changes", "change-side"],
    matrix: ["matrix"],
    register: ["register"],
    import: ["import"],
    roles: ["roles"],
    several: ["several", "several-standing", "several-shelved"],
};

// The roles that have ended in the unit that is shown, while its page stays: what is typed is kept.
function keepRoles(rolesBefore) {
    const ended = rolesBefore.filter((role) => !rolesHeld().includes(role));
    const kept = [...here.kept].filter((role) => !rolesHeld().includes(role));
    here.kept = new Set([...kept, ...ended]);
    if (ended.length > 0) {
        const what = here.hasEnded ? "any role" : `the role ${ended.join(", ")}`;
        sayNotice(`You no longer hold ${what} in ${here.unit}. What you typed stays here, but the office will refuse it. `
            + "A steward of the unit may grant it again.");
    } else if (kept.length === 0 && !$("notice").hidden && $("notice").dataset.of === "roles") {
        sayNotice("");
    }
    $("notice").dataset.of = here.kept.size > 0 ? "roles" : "";
}

// Shows what the address names, as far as the caller may see it. Of the unit that is shown already the page stays, also without a role.
function follow() {
    const address = readAddress(location.hash);
    here.isUnitsDue ||= address.offices.join() !== here.offices.join();
    here.offices = address.offices;
    const codes = here.units.map((held) => held.unit);
    if (address.view === "several") {
        address.unit = codes.includes(here.unit) ? here.unit : codes[0] ?? "";
    }
    const {unit: unitBefore, view: viewBefore, tag: tagBefore, number: numberBefore} = here;
    const stays = unitBefore !== null && (unitBefore === address.unit || codes.length === 0);
    const unit = codes.includes(address.unit) ? address.unit : stays ? unitBefore : codes[0] ?? null;
    here.unit = unit;
    here.hasEnded = unit !== null && !codes.includes(unit);
    const isElsewhere = unit !== address.unit;
    const view = isElsewhere || !maySee(address.view, keeps) ? "alarms" : address.view;
    const tag = isElsewhere ? null : address.tag;
    Object.assign(here, {view, tag, number: view === address.view ? address.number : null});
    if (unit !== null && (isElsewhere || view !== address.view)) {
        sayNotice(isElsewhere && address.unit !== "" && here.person !== ""
            ? `You hold no role in the unit ${address.unit} at this moment: this is ${unit}.`
            : isElsewhere ? "" : `You do not hold the role ${VIEWS.get(address.view)} in ${unit}.`);
        history.replaceState(null, "", addressOf(unit));
    }
    const severalBefore = here.several.join();
    here.several = view !== "several" ? [] : address.units.length > 0 ? address.units : codes;
    if (here.several.join() !== severalBefore) {
        forgetSeveral();
        outOfDate();
    }
    if (unit !== unitBefore) {
        [forgetAlarms, forgetFloods, forgetProposals, forgetMatrix, forgetFile, forgetRoles].forEach((forget) => forget());
    }
    showUnits();
    if (tag !== tagBefore || unit !== unitBefore) {
        changeAlarm();
    }
    showWhere();
    if (unit !== unitBefore || view !== viewBefore || tag !== tagBefore || here.number !== numberBefore) {
        if (view === "changes" && viewBefore !== "changes") {
            forgetChanges();
        }
        moveFocus(unitBefore, viewBefore, tagBefore, numberBefore);
        outOfDate();
    }
}

function showWhere() {
    const {unit, view, tag} = here;
    document.body.dataset.view = tag === null ? view : "alarm";
    for (const [name, sections] of Object.entries(SECTIONS)) {
        sections.forEach((id) => {
            $(id).hidden = unit === null || name !== view;
        });
    }
    $("floods").hidden = $("standing-panel").hidden = unit === null || view !== "alarms" || tag !== null;
    $("alarm").hidden = unit === null || tag === null;
    document.querySelectorAll("#views a").forEach((link) => {
        if (link.dataset.view === "several") {
            link.hidden = here.units.length < 2;
            link.href = addressOf(`units=${here.units.map((held) => held.unit).join()}`);
            put(link, "aria-current", view === "several" ? "page" : null);
            return;
        }
        link.hidden = unit === null || !maySee(link.dataset.view, link.dataset.view === view ? keeps : undefined);
        link.href = link.dataset.view === "alarms" ? addressOf(unit) : addressOf(unit, link.dataset.view);
        put(link, "aria-current", link.dataset.view === view ? "page" : null);
    });
    const roles = unit === null ? "no role in any unit at this moment" : rolesHeld().join(", ") || "no role in this unit any more";
    say($("person"), here.person === "" ? "" : `${here.person}: ${roles}`);
    showSignOff(here.person);
    here.isComparing = false;
    showTitle();
    showAlarms();
    showSeveral();
    showChanges();
    showMatrix();
    showImport();
}

function showTitle() {
    const {unit, view, tag, standing} = here;
    const what = tag ?? (view === "alarms" ? `${standing.size} standing` : view);
    document.title = unit === null ? "Alarm board" : view === "several" ? `${here.several.join(", ")}` : `${unit}: ${what}`;
}

// the keyboard goes on where the eyes do
function moveFocus(unitBefore, viewBefore, tagBefore, numberBefore) {
    if (unitBefore === null || unitBefore !== here.unit) {
        return;
    }
    if (here.tag !== null) {
        $("alarm-title").focus();
    } else if (here.number !== null) {
        $("change-title").focus();
    } else if (here.view === "alarms" && tagBefore !== null) {
        focusAlarm(tagBefore);
    } else if (here.view === "changes" && numberBefore !== null) {
        focusChange(numberBefore);
    } else if (here.view !== viewBefore) {
        focusContent();
    }
}

const focusContent = () => $(SECTIONS[here.view][0]).querySelector("h2").focus();

// After the units were answered.
let rolesBefore = [];
function showHeld() {
    const {unit} = here;
    follow();
    if (here.unit === unit) {
        keepRoles(rolesBefore);
        showWhere();
    }
    rolesBefore = rolesHeld();
    here.isUnitsDue ||= here.hasEnded;
}

// ---- Each second

// The clock runs only while the lists are refreshed; else it stands at the moment that they are of.
function showClock(isOld) {
    const moment = isOld ? here.answeredAt : momentNow();
    const text = moment === null ? "" : `${dateText(moment)} ${clockText(moment)} UTC${hereText(moment)}${isOld ? ", not refreshed" : ""}`;
    if ($("clock").dataset.text !== text) {
        $("clock").dataset.text = text;
        $("clock").replaceChildren(...text === "" ? [] : [make("span", "date", text.slice(0, 10)), text.slice(10)]);
    }
}

function tick() {
    const isOld = here.unit !== null && areListsOld();
    document.body.classList.toggle("stale", isOld);
    showClock(isOld);
    if (momentNow() !== null && !isOld) {
        runAllDown();
        showUntil();
        showNewest();
    }
    showWaiting();
}

// all that blinks, blinks at once: once a second
const blink = () => document.body.classList.toggle("dark-phase");

$("skip").addEventListener("click", (event) => {
    event.preventDefault();
    focusContent();
});
$("unit").addEventListener("change", () => {
    const isPlain = ["alarms", "several"].includes(here.view);
    location.hash = isPlain ? addressOf($("unit").value) : addressOf($("unit").value, here.view);
});
addEventListener("hashchange", () => {
    sayNotice("");
    here.kept.clear();
    follow();
    rolesBefore = rolesHeld();
});
document.addEventListener("visibilitychange", () => {
    if (!document.hidden) {
        askNow();
    }
});

[() => askUnits(showHeld), askAlarms, askSeveral, askFloods, askAlarm, askChanges, askInForce, askNewest, askFull].forEach(eachRound);
whilePrinting(showChanges);
const showSeen = () => {
    showChanges();
    showMatrix();
    showPrice();
};
eachRound(async () => () => {
    showTitle();
    showSeen();
    showImport();
    lookOn(showSeen);
    lookAtRecords(showSeen);
});
showWhere();
setInterval(tick, 250);
setInterval(blink, 500);
askOn(showTrouble);

// What operators and maintenance do with the alarm that is shown: shelve it, end its shelf, take it out of service and back.

import {act} from "./acting.js";
import {onAlarm, shown} from "./alarm.js";
import {get} from "./asking.js";
import {$, areRight, say, sayAnswer} from "./elements.js";
import {makeDrawn} from "./drawn.js";
import {here, keeps} from "./here.js";
import {SHELF_COLUMNS, askList} from "./lists.js";
import {askRemovals, rememberRemoval, removalOf} from "./service.js";
import {REMARK_WANTED, LENGTH_WANTED, clockText, hereText, isRemark, leftText, lengthText, momentText, plainMoment, secondsOf} from "./texts.js";
import {momentNow} from "./time.js";

const HOUR = 3600; // seconds, which the form proposes unless the alarm's limit is less
const shelving = $("shelving");
const service = $("service");
let filledFor = null; // the unit and the alarm that the forms were filled for

// ---- What the forms are drawn from

const shelfKey = (shelf) => (shelf ? [shelf.kind, shelf.start, shelf.person, shelf.words].join("\n") : "");
const serviceState = (alarm, unit) => ({isOut: alarm.out_of_service, removal: removalOf(unit, alarm.tag)});

async function askShelf(unit, tag) {
    const {rows} = await askList(`/units/${unit}/shelves`, "SHELVES", SHELF_COLUMNS, unit);
    return rows.find((row) => row.tag === tag);
}

async function askService(unit, tag) {
    const alarm = await get(`/units/${unit}/alarms/${tag}`);
    if (alarm.out_of_service) {
        await askRemovals({atOnce: true});
    }
    return alarm;
}

// what stands of an alarm, in words
async function standsOf(unit, tag) {
    const {out_of_service: isOut} = await askService(unit, tag);
    const shelf = await askShelf(unit, tag);
    const kind = shelf?.kind === "timed" ? "for a time" : "one-shot";
    const left = shelf && leftText(Number(shelf.left));
    const shelved = shelf ? `shelved ${kind} by ${shelf.person}, ${left} left: “${shelf.words}”` : "not shelved";
    const removal = isOut && removalOf(unit, tag);
    const by = removal ? ` by ${removal.person} since ${plainMoment(removal.moment)}: “${removal.words}”` : "";
    return `${tag} is ${shelved}, and ${isOut ? `out of service${by}` : "in service"}.`;
}

const tell = () => standsOf(here.unit, here.tag);
const shelfDrawn = makeDrawn(shelving, {
    now: () => shown.alarm && (shown.alarm.shelf === "Unshelved" ? "" : shelfKey(here.alarms.get(shown.tag)?.shelf) || shown.alarm.shelf),
    ask: async () => shelfKey(await askShelf(here.unit, here.tag)),
    differs: (one, other) => one !== other,
    draw(key) {
        say($("how"), key !== "" ? "Shelve it otherwise" : "Shelve it");
        $("unshelve").hidden = key === "";
    },
    tell,
});
const serviceDrawn = makeDrawn(service, {
    now: () => shown.alarm && serviceState(shown.alarm, here.unit),
    ask: async () => serviceState(await askService(here.unit, here.tag), here.unit),
    // a removal that is known on one side alone may be the same
    differs: (one, other) => one.isOut !== other.isOut || (one.removal && other.removal && one.removal.moment !== other.removal.moment),
    draw({isOut}) {
        $("remove").disabled = $("service-words").disabled = isOut;
        $("place").disabled = !isOut;
        $("service-remark").hidden = isOut;
    },
    tell,
});

async function call(form, drawn, action, body, done) {
    const {unit, tag} = here;
    const path = `/units/${unit}/alarms/${tag}/${action}`;
    const stands = () => standsOf(unit, tag);
    const accepted = await act(form, {
        subject: tag, path, body: body && JSON.stringify(body), changed: drawn.changed, done: () => `${tag} ${done}`, stands,
    });
    if (accepted && action === "remove-from-service") {
        rememberRemoval(unit, tag, {person: here.person, moment: momentText(momentNow()), words: body.words});
    }
    if (accepted && here.unit === unit && here.tag === tag) {
        form.querySelector(".remark").value = "";
        drawn.renew();
    }
}

function showWork() {
    const {alarm, tag} = shown;
    shelving.hidden = alarm === null || !keeps("Operator");
    service.hidden = alarm === null || !keeps("Maintainer");
    if (alarm === null) {
        filledFor = tag === null ? null : filledFor;
        return;
    }
    const key = `${here.unit}/${tag}`;
    if (key !== filledFor) {
        filledFor = key;
        for (const form of [shelving, service]) {
            form.reset();
            if (!form.hasAttribute("data-busy")) {
                sayAnswer(form, "", "");
            }
        }
        $("seconds").value = lengthText(Math.min(alarm.limit, HOUR));
        $(alarm.shelf === "TimedShelved" ? "one-shot" : "timed").checked = true;
    }
    shelfDrawn.refresh(key);
    serviceDrawn.refresh(key);
    showUntil();
}

const endText = (moment) => clockText(moment) + hereText(moment);

// until when the seconds in the form are
export function showUntil() {
    const seconds = secondsOf($("seconds").value);
    say($("until"), seconds && momentNow() ? `${lengthText(seconds)}, until ${endText(momentNow() + seconds * 1000)}` : "");
    $("seconds").disabled = $("one-shot").checked;
}

function shelve(event) {
    event.preventDefault();
    const words = $("words").value;
    const seconds = secondsOf($("seconds").value);
    const isTimed = $("timed").checked;
    const isRight = areRight(shelving, [
        [$("seconds"), !isTimed || seconds !== null, `For how long? Give ${LENGTH_WANTED}.`],
        [$("words"), isRemark(words), `Say why: ${REMARK_WANTED}, and not blanks alone.`],
    ]);
    if (isRight && isTimed) {
        call(shelving, shelfDrawn, "timed-shelve", {seconds, words}, `is shelved for ${lengthText(seconds)}.`);
    } else if (isRight) {
        call(shelving, shelfDrawn, "one-shot-shelve", {words}, "is shelved until it returns to normal.");
    }
}

// Each button does what it says; Enter in the words takes the alarm out of service.
function serve(event) {
    event.preventDefault();
    const words = $("service-words").value;
    if (event.submitter === $("place")) {
        call(service, serviceDrawn, "place-in-service", "", "is in service again.");
    } else if (areRight(service, [[$("service-words"), isRemark(words), `Say why: ${REMARK_WANTED}, and not blanks alone.`]])) {
        call(service, serviceDrawn, "remove-from-service", {words}, "is out of service.");
    }
}

onAlarm(showWork);
shelving.addEventListener("submit", shelve);
$("unshelve").addEventListener("click", () => call(shelving, shelfDrawn, "unshelve", "", "is no longer shelved."));
service.addEventListener("submit", serve);
$("seconds").addEventListener("input", showUntil);
shelving.addEventListener("change", showUntil);

// What engineers propose for the alarm that is shown: another record, another limit. A proposal names the revision that it was drawn up
// for, which is the one in force when its form was filled.

import {act} from "./acting.js";
import {onAlarm, shown} from "./alarm.js";
import {$, areRight, say, sayAnswer} from "./elements.js";
import {here, keeps} from "./here.js";
import {forgetChanges, standsOfProposal} from "./changes.js";
import {makeOffer, makePrice, priceOf} from "./pricing.js";
import {outOfDate} from "./rounds.js";
import {REMARK_WANTED, LENGTH_WANTED, isRemark, lengthText, secondsOf} from "./texts.js";

const REMARKS = ["cause", "consequence", "action"];

// A form with its fields, filled once for an alarm and anew on demand.
function makeProposal(form, {revisionOf, fieldsOf}) {
    let filledFor = null;
    let base = null;
    const fields = () => [...form.querySelectorAll("input, select")];

    function fillAnew() {
        base = revisionOf(shown);
        for (const [id, value] of Object.entries(fieldsOf(shown))) {
            $(id).value = String(value);
        }
    }

    function show() {
        const key = `${here.unit}/${shown.tag}`;
        if (shown.alarm === null || !keeps("Engineer")) {
            filledFor = shown.tag === null ? null : filledFor;
            return;
        }
        if (filledFor !== key) {
            filledFor = key;
            fillAnew();
            form.closest("details").open = false;
            if (!form.hasAttribute("data-busy")) {
                sayAnswer(form, "", "");
            }
        }
        const current = revisionOf(shown);
        const note = current === base ? "" : ` Meanwhile revision ${current} is in force, and the office will refuse this.`;
        say(form.querySelector(".base"), `Drawn up for revision ${base}.${note}`);
        form.querySelector(".anew").hidden = current === base;
    }

    form.querySelector(".anew").addEventListener("click", () => {
        fillAnew();
        show();
        fields()[0].focus();
    });
    onAlarm(show);
    return {
        send: async (kind, content) => {
            const {unit, tag} = here;
            const body = {kind, base, tag, ...content};
            const accepted = await act(form, {
                subject: `${kind} of ${tag}`,
                path: `/units/${unit}/changes`,
                body: JSON.stringify(body),
                done: (text) => `The ${kind} of ${tag} is proposed as change ${JSON.parse(text).number}. Another person has to approve it.`,
                stands: () => standsOfProposal(unit, body),
            });
            if (accepted) {
                forgetChanges();
            }
        },
    };
}

const recordForm = $("record-form");
const limitForm = $("limit-form");

const record = makeProposal(recordForm, {
    revisionOf: ({record: held}) => held?.revision ?? 0,
    fieldsOf: ({record: held}) => ({
        cause: held?.cause ?? "",
        consequence: held?.consequence ?? "",
        action: held?.action ?? "",
        severity: held?.severity ?? 1,
        response: held ? lengthText(held.response) : "",
    }),
});
const limit = makeProposal(limitForm, {
    revisionOf: ({alarm}) => alarm.limit_revision,
    fieldsOf: ({alarm}) => ({max: lengthText(alarm.limit)}),
});

// The priority of the record that is being drawn up, by the matrix in force, beside the one that the alarm has.
let pricedAs = "";
export function showPrice() {
    here.isPricing = shown.alarm !== null && keeps("Engineer") && recordForm.closest("details").open;
    const response = secondsOf($("response").value);
    if (!here.isPricing) {
        return;
    }
    const held = shown.record;
    const record = {severity: Number($("severity").value), response};
    const price = response === null ? {priority: null, words: "–"} : priceOf(here.unit, record, held);
    const built = JSON.stringify([here.unit, shown.tag, held?.priority, price]);
    if (built !== pricedAs) {
        pricedAs = built;
        say($("price-now"), held ? `now ${held.priority}, with this record: ` : "none now, with this record: ");
        $("price-after").replaceChildren(makePrice(price));
        $("price-offer").replaceChildren(price.priority === null && response !== null ? makeOffer(here.unit) : "");
    }
}
recordForm.addEventListener("input", showPrice);
recordForm.addEventListener("change", showPrice);
recordForm.closest("details").addEventListener("toggle", () => {
    showPrice();
    if (here.isPricing) {
        outOfDate(); // the changes are asked for at once
    }
});
onAlarm(showPrice);

onAlarm(() => {
    $("proposing").hidden = shown.alarm === null || !keeps("Engineer");
});

recordForm.addEventListener("submit", (event) => {
    event.preventDefault();
    const response = secondsOf($("response").value);
    const isRight = areRight(recordForm, [
        ...REMARKS.map((id) => [$(id), isRemark($(id).value), `Give the ${id} in ${REMARK_WANTED}.`]),
        [$("response"), response !== null, `How long is there to respond? Give ${LENGTH_WANTED}.`],
    ]);
    if (isRight) {
        const remarks = Object.fromEntries(REMARKS.map((id) => [id, $(id).value]));
        record.send("record", {...remarks, severity: Number($("severity").value), response});
    }
});

limitForm.addEventListener("submit", (event) => {
    event.preventDefault();
    const max = secondsOf($("max").value);
    if (areRight(limitForm, [[$("max"), max !== null, `Give ${LENGTH_WANTED}.`]])) {
        limit.send("limit", {max});
    }
});

// what the length of time in a field comes to
for (const [field, place] of [["response", "response-span"], ["max", "max-span"]]) {
    const show = () => {
        const seconds = secondsOf($(field).value);
        say($(place), seconds === null ? "" : lengthText(seconds));
    };
    $(field).addEventListener("input", show);
    onAlarm(show);
}

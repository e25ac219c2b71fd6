// An alarm of the control system becomes one of the unit.

import {act} from "./acting.js";
import {getUnless} from "./asking.js";
import {$, areRight, makeLink, say} from "./elements.js";
import {addressOf, here} from "./here.js";
import {LENGTH_WANTED, TAG_WANTED, isTag, lengthText, secondsOf, secondsText} from "./texts.js";

const form = $("register");

async function standsOf(unit, tag) {
    const alarm = await getUnless("AlarmUnknown", `/units/${unit}/alarms/${tag}`);
    return alarm ? `${tag} is registered, with a limit of ${secondsText(alarm.limit)}.` : `${tag} is not registered.`;
}

form.addEventListener("submit", async (event) => {
    event.preventDefault();
    const tag = $("new-tag").value.trim();
    const max = secondsOf($("new-max").value);
    const isRight = areRight(form, [
        [$("new-tag"), isTag(tag), `A tag is ${TAG_WANTED}.`],
        [$("new-max"), max !== null, `The limit is ${LENGTH_WANTED}.`],
    ]);
    if (!isRight) {
        return;
    }
    const {unit} = here;
    const accepted = await act(form, {
        subject: tag,
        path: `/units/${unit}/alarms`,
        body: JSON.stringify({tag, latching: $("latching").checked, max}),
        done: () => `${tag} is registered, with a limit of ${secondsText(max)}. `,
        stands: () => standsOf(unit, tag),
    });
    if (accepted) {
        form.querySelector(".answer").append(makeLink("", `Show ${tag}`, addressOf(unit, tag)));
        form.reset();
        say($("new-max-span"), "");
    }
});

$("new-max").addEventListener("input", () => {
    const seconds = secondsOf($("new-max").value);
    say($("new-max-span"), seconds === null ? "" : lengthText(seconds));
});

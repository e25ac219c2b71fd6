// Calls that change something. Each is sent once. If its answer is lost, the page says that the call may have been made, and asks what
// stands as soon as the office answers again.

import {ask} from "./asking.js";
import {put, sayAnswer} from "./elements.js";
import {here} from "./here.js";
import {nextRound, outOfDate} from "./rounds.js";

const setBusy = (form, isBusy) => {
    form.toggleAttribute("data-busy", isBusy);
    form.querySelectorAll("button").forEach((button) => put(button, "aria-disabled", isBusy ? "true" : null));
};

async function whatStands(stands) {
    for (;;) {
        await nextRound();
        try {
            return await stands();
        } catch (error) {
            if (!error.lost) {
                return error.words ?? error.message;
            }
        }
    }
}

// Why a call is not to be sent, in words, if `changed` finds a reason or gets no answer.
async function whyNot(subject, changed) {
    try {
        return await changed();
    } catch (error) {
        return `${subject}: ${error.words ?? error.message} Nothing was sent.`;
    }
}

// `changed` says why the call is not to be sent, or gives null; `done` makes what is said of the office's answer, `failed` may show a
// refusal in its own way, `stands` asks what stands and gives it in words. Whether the call was accepted.
export async function act(form, {subject, path, body = "", changed = () => null, done, failed, stands}) {
    if (form.hasAttribute("data-busy")) {
        return false;
    }
    setBusy(form, true);
    sayAnswer(form, `Asking the office about ${subject}…`, "");
    try {
        const reason = await whyNot(subject, changed);
        if (reason !== null) {
            sayAnswer(form, reason, "refused");
            return false;
        }
        const text = await ask("POST", path, body);
        sayAnswer(form, done(text), "done");
        return true;
    } catch (error) {
        const words = `${subject}: ${error.words ?? error.message}`;
        sayAnswer(form, words, "refused");
        if (error.lost) {
            sayAnswer(form, `${words} It may have been made all the same. The page sends nothing again, and asks what stands.`, "refused");
            outOfDate();
            const found = await whatStands(stands);
            sayAnswer(form, `${words} It may have been made all the same. What stands now: ${found}`, "refused");
        } else {
            here.isUnitsDue ||= ["RoleLacking", "NotGranted"].includes(error.name);
            failed?.(error);
        }
        return false;
    } finally {
        setBusy(form, false);
        outOfDate();
    }
}

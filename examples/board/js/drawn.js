// A form for actions is drawn from a state. While somebody is at it, it stays as it was drawn: if the state changes meanwhile, the form says
// so, and its buttons do nothing until the form is drawn anew. So no button turns into its opposite before it is pressed.

import {put, say} from "./elements.js";
import {nextRound, outOfDate} from "./rounds.js";

const SETTLING = 700; // milliseconds in which nothing is done after a form that nobody was at has changed

// `now` gives the state by the last answers, or null without any; `ask` gives it by a new answer; `differs` compares two states; `draw`
// shows one; `tell` gives in words what is so, if need be by asking.
export function makeDrawn(form, {now, ask, differs, draw, tell}) {
    const note = form.querySelector(".changed");
    const heading = form.querySelector("h3");
    let subject = null; // what the form is about
    let state = null; // what it was drawn from
    let hasChanged = false;
    let isHeld = false; // until the answers of a round that is waited for
    let settledAt = -Infinity;

    function drawAnew() {
        state = now();
        hasChanged = isHeld = false;
        note.hidden = true;
        if (state === null) {
            subject = null; // nothing is shown, or not yet
        } else {
            draw(state);
        }
    }

    function refresh(newSubject) {
        if (newSubject !== subject) {
            subject = newSubject;
            drawAnew();
        } else if (isHeld) {
            return;
        } else if (!hasChanged && !differs(state, now())) {
            state = now(); // the same, but more may be known of it
        } else {
            const isUsed = form.contains(document.activeElement) || form.hasAttribute("data-busy");
            if (isUsed) {
                hasChanged = true;
                if (note.hidden) {
                    tellChange();
                }
            } else {
                settledAt = performance.now() + SETTLING;
                drawAnew();
            }
        }
    }

    async function tellChange() {
        const words = await tell();
        say(note.querySelector("span"), `This has changed while you were here. ${words}`);
        note.hidden = !hasChanged;
        return words;
    }

    // Why an action is not to be sent: what is so now. Null if all is as it was drawn.
    async function changed() {
        const found = await ask();
        hasChanged ||= differs(state, found);
        if (!hasChanged && performance.now() >= settledAt) {
            return null;
        }
        return `Nothing was sent, because this has changed meanwhile. ${await tellChange()}`;
    }

    function focusHeading() {
        put(heading, "tabindex", "-1");
        heading.focus({preventScroll: true});
    }

    // Draws the form by the answers of the next round: after an action of its own, or because somebody wants it.
    async function renew() {
        isHeld = true;
        if (form.contains(document.activeElement)) {
            focusHeading();
        }
        outOfDate();
        await nextRound();
        drawAnew();
        const answer = form.querySelector(".answer");
        if (answer.textContent !== "" && form.contains(document.activeElement)) {
            answer.scrollIntoView({block: "nearest"}); // what was drawn may have moved it
        }
    }

    note.querySelector("button").addEventListener("click", renew);
    form.addEventListener("focusout", ({relatedTarget}) => {
        if (hasChanged && !form.contains(relatedTarget) && document.hasFocus()) {
            drawAnew();
        }
    });
    return {refresh, changed, renew};
}

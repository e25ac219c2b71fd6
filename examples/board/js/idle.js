// Asking for many things one after another while the page is idle, in small portions, so that nothing else waits.

import {here} from "./here.js";

const BATCH = 40; // how many are asked for between two pauses
const PAUSE = 150; // milliseconds

function firstOf(things) {
    const first = [];
    for (const thing of things) {
        if (first.push(thing) === BATCH) {
            break;
        }
    }
    return first;
}

// `isWanted` says whether to go on, `missing` gives what is still to be asked for in the unit, `ask` asks for one of it, and `orderOf`
// says in which order. What is returned is called after each round with what shows more. It ends by itself: when nothing is missing, the
// unit or the view is another one, or an answer is not what was asked for. The rounds say what went wrong, and begin it again.
export function makeIdle({isWanted, missing, ask, orderOf = () => null}) {
    let isBusy = false;
    return async (show) => {
        if (isBusy) {
            return;
        }
        isBusy = true;
        const {unit} = here;
        const goesOn = () => here.unit === unit && !document.hidden && isWanted();
        try {
            while (goesOn()) {
                const batch = firstOf(missing(unit));
                if (batch.length === 0) {
                    break;
                }
                const order = orderOf(unit);
                for (const each of batch) {
                    if (!goesOn() || orderOf(unit) !== order) {
                        break;
                    }
                    await ask(unit, each);
                }
                if (here.unit === unit) {
                    show();
                }
                await new Promise((resolve) => setTimeout(resolve, PAUSE));
            }
        } catch {
            // see above
        } finally {
            isBusy = false;
        }
    };
}

// The colours, as the computer says or as somebody has chosen, and what is printed: the lists whole.

import {$} from "./elements.js";

const PLACE = "shelfoffice-colours"; // where the browser keeps the choice

function keep(choice) {
    try {
        localStorage.setItem(PLACE, choice);
    } catch {
        // a browser that keeps nothing
    }
}

function kept() {
    try {
        return localStorage.getItem(PLACE) ?? "";
    } catch {
        return "";
    }
}

function showColours(choice) {
    const isKnown = ["light", "dark"].includes(choice);
    document.documentElement.dataset.scheme = isKnown ? choice : "";
    $("colours").value = isKnown ? choice : "";
}

$("colours").addEventListener("change", () => {
    keep($("colours").value);
    showColours($("colours").value);
});
showColours(kept());

let isPrinting = false;
export const isOnPaper = () => isPrinting;

// Shows the lists whole while the page is printed.
export function whilePrinting(show) {
    for (const [event, value] of [["beforeprint", true], ["afterprint", false]]) {
        addEventListener(event, () => {
            isPrinting = value;
            show(value);
        });
    }
}

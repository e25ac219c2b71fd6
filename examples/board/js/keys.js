// The keys of the whole page; those of the lists are with the lists.

import {$} from "./elements.js";
import {addressOf, here} from "./here.js";
import {openLegend} from "./legend.js";

document.addEventListener("keydown", (event) => {
    const isTyping = event.target.matches("input, select, textarea");
    if ($("legend").open || event.ctrlKey || event.metaKey || event.altKey) {
        return;
    }
    if (event.key === "Escape" && here.tag !== null && event.target.id !== "find") {
        location.hash = addressOf(here.unit);
    } else if (event.key === "Escape" && here.number !== null) {
        location.hash = addressOf(here.unit, "changes");
    } else if (event.key === "/" && !isTyping && here.view === "alarms") {
        $("find").focus();
        event.preventDefault();
    } else if (event.key === "?" && !isTyping) {
        openLegend();
        event.preventDefault();
    }
});

// The legend of the marks, with the marks themselves, one key away.

import {$, make} from "./elements.js";
import {atRest, makeFlags, makeMark} from "./marks.js";

const alarm = (priority, state, flags = "---") => ({priority, state, flags});
const MARKS = [
    [["P1", "P2", "P3", "P4"].map((priority) => atRest(priority)), "grey: at rest. A shape for each priority, P1 is the highest"],
    [[atRest("-")], "no record of the alarm was approved"],
    [[atRest("N")], "the matrix says that no alarm is needed"],
    [["P1", "P2", "P3", "P4", "-"].map((priority) => alarm(priority, "Acknowledged")), "in colour: active and acknowledged"],
    [[alarm("P1", "Unacknowledged")], "blinks, with its state in bold: active and not acknowledged"],
    [[alarm("P2", "ReturnedUnack")], "hollow, blinks: has returned, and was not acknowledged"],
    [[alarm("P2", "LatchedAck")], "hollow: latched, acknowledged, waits for its reset"],
    [[alarm("P3", "Unacknowledged", "S--")], "dashed, without colour: not normal, but shelved, suppressed or out of service"],
];
const FLAGS = [["S--", "shelved"], ["-D-", "suppressed by design"], ["--O", "out of service"]];
const KEYS = [
    ["?", "this legend"],
    ["/", "find a tag"],
    ["Tab, Enter", "from one control to the next; open or press it"],
    ["↑ ↓ Home End", "from one line of a list to another"],
    ["Esc", "close the alarm, the change or this legend"],
];

function build() {
    for (const [alarms, words] of MARKS) {
        const cell = make("dt", "");
        for (const each of alarms) {
            const mark = makeMark();
            mark.show(each);
            // the letters belong to the shapes, and are enough once
            cell.append(each.state === "Normal" ? mark.node : mark.node.firstChild);
        }
        $("legend-marks").append(make("div", "", cell, make("dd", "", words)));
    }
    for (const [flags, words] of FLAGS) {
        const chips = makeFlags();
        chips.show(alarm("-", "Normal", flags));
        $("legend-marks").append(make("div", "", make("dt", "", chips.node), make("dd", "", words)));
    }
    for (const [key, words] of KEYS) {
        $("legend-keys").append(make("div", "", make("dt", "", make("kbd", "", key)), make("dd", "", words)));
    }
}

export function openLegend() {
    if (!$("legend").open) {
        $("legend").showModal();
    }
}

build();
$("open-legend").addEventListener("click", openLegend);
$("close-legend").addEventListener("click", () => $("legend").close());
$("legend").addEventListener("close", () => {
    if (document.activeElement === document.body) {
        $("open-legend").focus(); // the legend was opened while nothing had the keyboard
    }
});

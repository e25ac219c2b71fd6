// Import: a file of events is dropped or chosen, checked in the page, and sent as it is.

import {act} from "./acting.js";
import {$, makeFacts, say, sayAnswer, showFact} from "./elements.js";
import {LARGEST, checkFile, lineText} from "./events.js";
import {here} from "./here.js";
import {FILE_CAUSES, momentText, plainMoment} from "./texts.js";
import {momentNow} from "./time.js";

const form = $("import");
const facts = makeFacts($("file-facts"), ["File", "Rows", "Events", "Alarms", "From", "To"]);
let file = null; // its name and its bytes
let faultOfOffice = null;

export function forgetFile() {
    file = null;
    faultOfOffice = null;
    form.reset();
    sayAnswer(form, "", "");
    showImport();
}

async function take(files) {
    if (files.length !== 1 || form.hasAttribute("data-busy")) {
        return;
    }
    const [taken] = files;
    faultOfOffice = null;
    sayAnswer(form, "", "");
    try {
        file = {name: taken.name, bytes: new Uint8Array(await taken.arrayBuffer())};
    } catch {
        file = null;
        sayAnswer(form, `${taken.name} cannot be read.`, "refused");
    }
    showImport();
}

const counted = (count, one, more) => `${count} ${count === 1 ? one : more}`;

// What is found in the file: the facts by name, and its first fault in words with the line, or null.
function examine({name, bytes}) {
    const facts = {File: `${name}, ${counted(bytes.length, "byte", "bytes")}`};
    if (bytes.length > LARGEST) {
        const words = "The file was not sent: the office takes nothing above 1 MiB. Split it; files may come in any order.";
        return {facts, count: 0, fault: {words, line: ""}};
    }
    const soon = momentText(momentNow() + 2000); // the call's moment is a little later than this one
    const {count, repeated, isRead, kinds, tags, first, last, fault} = checkFile(bytes, (tag) => here.alarms.has(tag), soon);
    facts.Rows = counted(count, "row", "rows") + (repeated ? `, ${repeated} of them repeated in the file` : "");
    if (isRead) {
        facts.Events = [...kinds].filter((kind) => kind[1] > 0).map(([kind, number]) => `${number} ${kind}`).join(", ");
        facts.Alarms = String(tags);
        facts.From = plainMoment(first);
        facts.To = plainMoment(last);
    }
    const shown = fault ?? faultOfOffice;
    if (shown === null) {
        return {facts, count, fault: null};
    }
    const by = fault ? "The file was not sent." : "The office kept nothing of the file.";
    const words = FILE_CAUSES.get(shown.cause) ?? "The line has a fault.";
    return {facts, count, fault: {words: `${by} Line ${shown.line}: ${words} (${shown.cause})`, line: lineText(bytes, shown.line)}};
}

export function showImport() {
    if (here.view !== "import") {
        return;
    }
    const found = file === null || here.answeredAt === null ? null : examine(file);
    $("file-facts").hidden = found === null;
    Object.entries(facts).forEach(([name, value]) => showFact(value, found?.facts[name] ?? null));
    $("file-fault").hidden = !found?.fault;
    say($("fault-words"), found?.fault?.words ?? "");
    $("fault-line").hidden = !found?.fault?.line;
    say($("fault-line"), found?.fault?.line ?? "");
    $("send").hidden = found === null || found.fault !== null;
    say($("send"), found === null ? "Send" : `Send ${counted(found.count, "row", "rows")}`);
}

form.addEventListener("submit", async (event) => {
    event.preventDefault();
    if (file === null || $("send").hidden) {
        return;
    }
    const {name, bytes} = file;
    const {unit} = here;
    const accepted = await act(form, {
        subject: name,
        path: `/units/${unit}/imports`,
        body: bytes,
        done: (text) => {
            const counts = JSON.parse(text);
            const repeated = counted(counts.repeated, "is repeated", "are repeated");
            return `${name}: ${counted(counts.new, "row is new", "rows are new")}, ${repeated}.`;
        },
        failed: (error) => {
            if (error.name === "BadFile" && error.value) {
                faultOfOffice = {line: Number(error.value.line), cause: String(error.value.cause)};
                showImport();
            }
        },
        stands: async () => "no call gives the events. The file may be sent again by hand: rows that are kept already count as repeated.",
    });
    if (accepted) {
        file = null;
        $("file").value = "";
        showImport();
        $("file").focus();
    }
});

$("file").addEventListener("change", () => take($("file").files));
// the same file may be chosen again once it is corrected
$("file").addEventListener("click", () => {
    $("file").value = "";
});
for (const kind of ["dragenter", "dragover", "dragleave", "drop"]) {
    // a file that is dropped beside the place would take the page away
    document.addEventListener(kind, (event) => {
        if (!event.dataTransfer.types.includes("Files")) {
            return;
        }
        event.preventDefault();
        const isOver = (kind === "dragenter" || kind === "dragover") && here.view === "import";
        $("drop").classList.toggle("over", isOver);
        if (kind === "drop" && here.view === "import") {
            take(event.dataTransfer.files);
        }
    });
}

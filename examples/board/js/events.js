// A file of events, read and checked as the office does: comma-separated values with the header seq,moment,tag,event. Lines count
// records, not blank lines; the header's is 1. Nothing here knows of the page.

import {isMoment, isTag} from "./texts.js";

const KINDS = ["ACT", "RTN", "ACK", "RESET", "SUP", "UNSUP"];
export const LARGEST = 1048576; // bytes
const MOST_ROWS = 10000;
const HEADER = ["seq", "moment", "tag", "event"];
const [QUOTE, COMMA, CR, LF] = ['"', ",", "\r", "\n"].map((sign) => sign.charCodeAt(0));

// The records of a file: the bytes of each field, and where the record stands in the file. A field in quotes may hold anything, with a
// quote given twice.
function* recordsOf(bytes) {
    let place = bytes[0] === 0xef && bytes[1] === 0xbb && bytes[2] === 0xbf ? 3 : 0;
    const isEnd = (byte) => byte === CR || byte === LF;
    while (place < bytes.length) {
        if (isEnd(bytes[place])) {
            place += 1;
            continue;
        }
        const begin = place;
        const fields = [];
        for (;;) {
            const field = [];
            let isQuoted = bytes[place] === QUOTE;
            place += isQuoted ? 1 : 0;
            while (place < bytes.length && (isQuoted || (bytes[place] !== COMMA && !isEnd(bytes[place])))) {
                if (isQuoted && bytes[place] === QUOTE && bytes[place + 1] !== QUOTE) {
                    isQuoted = false;
                } else {
                    place += isQuoted && bytes[place] === QUOTE ? 1 : 0;
                    field.push(bytes[place]);
                }
                place += 1;
            }
            fields.push(field);
            if (bytes[place] !== COMMA || place >= bytes.length) {
                break;
            }
            place += 1;
        }
        yield {fields, begin, end: place};
    }
}

const strict = new TextDecoder("utf-8", {fatal: true, ignoreBOM: true});
const textOf = (field) => {
    try {
        return strict.decode(Uint8Array.from(field));
    } catch {
        return null;
    }
};

function causeOf([seq, moment, tag, kind]) {
    return !/^[1-9]\d{0,11}$/.test(seq) ? "BadNumber"
        : !isMoment(moment) ? "BadMoment"
        : !isTag(tag) ? "BadTag"
        : !KINDS.includes(kind) ? "BadEvent"
        : null;
}

const isHeader = (fields) => fields.length === HEADER.length && fields.every((field, place) => field === HEADER[place]);

// The rows of a file before its first fault that needs nothing but the file, and how many it has in all.
function readRows(bytes) {
    const rows = [];
    let line = 0;
    let fault = null;
    for (const record of recordsOf(bytes)) {
        line += 1;
        if (fault !== null) {
            continue; // the rest is only counted
        }
        const fields = record.fields.map(textOf);
        const cause = line === 1 ? (isHeader(fields) ? null : "Header")
            : fields.length !== HEADER.length ? "FieldCount"
            : fields.includes(null) ? "NotUtf8"
            : causeOf(fields) ?? (rows.length === MOST_ROWS ? "TooLong" : null);
        if (cause !== null) {
            fault = {line, cause};
        } else if (line > 1) {
            const [seq, moment, tag, kind] = fields;
            rows.push({line, seq: Number(seq), moment, tag, kind});
        }
    }
    return {rows, count: Math.max(0, line - 1), fault: line === 0 ? {line: 1, cause: "Header"} : fault};
}

// Compares the rows with each other, with the unit's tags and with this moment, each with the rows before it.
function compare(rows, isKnown, now) {
    const sorted = []; // by number, the moments rising
    let repeated = 0;
    for (const row of rows) {
        let low = 0;
        let high = sorted.length;
        while (low < high) {
            const middle = (low + high) >> 1;
            [low, high] = sorted[middle].seq < row.seq ? [middle + 1, high] : [low, middle];
        }
        const there = sorted[low]?.seq === row.seq ? sorted[low] : null;
        const isSame = there && ["moment", "tag", "kind"].every((name) => there[name] === row[name]);
        const cause = !isKnown(row.tag) ? "TagUnknown"
            : row.moment > now ? "MomentAhead"
            : there && !isSame ? "SequenceClash"
            : (sorted[low - 1]?.moment > row.moment || sorted[low]?.moment < row.moment) ? "MomentOutOfOrder"
            : null;
        if (cause !== null) {
            return {repeated, fault: {line: row.line, cause}};
        }
        if (there) {
            repeated += 1;
        } else {
            sorted.splice(low, 0, row);
        }
    }
    return {repeated, fault: null};
}

// What a file has, and its first fault as far as it can be known without the events of the unit.
export function checkFile(bytes, isKnown, now) {
    const {rows, count, fault} = readRows(bytes);
    if (fault) {
        return {count, fault, repeated: 0, isRead: false};
    }
    const compared = compare(rows, isKnown, now);
    const kinds = new Map(KINDS.map((kind) => [kind, rows.filter((row) => row.kind === kind).length]));
    const moments = rows.map((row) => row.moment).sort();
    const tags = new Set(rows.map((row) => row.tag)).size;
    return {count, kinds, tags, first: moments[0], last: moments.at(-1), ...compared, isRead: count > 0};
}

// A line of the file in its own words. Bytes that are not UTF-8 are shown as the sign for that.
export function lineText(bytes, wanted) {
    let line = 0;
    for (const {begin, end} of recordsOf(bytes)) {
        line += 1;
        if (line === wanted) {
            return new TextDecoder().decode(bytes.subarray(begin, end));
        }
    }
    return "";
}

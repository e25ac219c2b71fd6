// What the office and the proxy answer, in plain words, and how moments and spans of time are written.

const FULL = new Map([
    ["Alarms", "2,000 alarms"],
    ["Grants", "500 grants, also those that have ended"],
    ["Changes", "20,000 changes"],
    ["Events", "100,000 events"],
]);

export const REFUSALS = new Map([
    ["NotGranted", () => "You hold no role in this unit at this moment."],
    ["RoleLacking", (role) => `This needs the role ${role}, which you do not hold in this unit.`],
    ["MomentBehind", (moment) => `The proxy's clock is before the last change, ${moment}. Have that clock checked.`],
    ["UnitFull", (what) => `The unit is full: it has at most ${FULL.get(what) ?? what}.`],
    ["AlarmTaken", () => "The unit has an alarm of this tag already."],
    ["AlarmUnknown", () => "The unit has no such alarm."],
    ["ShelvingTimeOutOfRange", (limit) => `The time is longer than the limit of this alarm, ${lengthText(Number(limit))}.`],
    ["ConditionAlreadyShelved", () => "The alarm is shelved in this way already."],
    ["ConditionNotShelved", () => "The alarm is not shelved, or no longer."],
    ["AlreadyOutOfService", () => "The alarm is out of service already."],
    ["NotOutOfService", () => "The alarm is in service."],
    ["AlreadyHeld", () => "The person holds this role already. For another end withdraw it first."],
    ["NotHeld", () => "The person does not hold this role."],
    ["LastSteward", () => "This is the last steward of the unit, which keeps one at least."],
    ["ChangeUnknown", () => "The unit has no change of this number."],
    ["NotProposed", (state) => `The change was decided before: it is ${state}.`],
    ["SamePerson", () => "You proposed this yourself: another person has to decide."],
    ["NotProposer", () => "Only who proposed a change takes it back."],
    ["BaseChanged", (revision) => `Revision ${revision} is in force meanwhile. Look at what has changed, and propose anew.`],
    ["OutsideMatrix", () => "The matrix has no row for the severity of this record, or of another one in force."],
    ["NotAnAlarm", () => "The matrix says N for this severity and time to respond: no alarm is needed."],
    ["RecordUnknown", () => "No record of the alarm was approved."],
    ["RangeNotAligned", () => "The range of the floods is not one of full ten minutes."],
    ["BadFile", () => "The file has a fault, and nothing of it was kept."],
    ["ShelfQuota", (quota) => `The unit allows ${quota} shelved alarms at once, and so many others are shelved.`],
    ["EndNotAhead", () => "The end is not after this moment."],
]);

export const CAUSES = new Map([
    ["BadPerson", "The name that you signed on with is not one that the office takes."],
    ["BadMoment", "The proxy's clock cannot be read. It has to run in UTC."],
    ["BadPath", "The address has a unit, a tag or a number that the office does not take."],
    ["BadBody", "The office does not take one of these values."],
    ["MatrixShape", "A matrix has 1 to 5 severities and at most 4 times, and a cell for each."],
    ["BandsNotRising", "Each time has to be longer than the one before."],
    ["NotOrdered", "A cell is lower than that of a lesser severity or a longer time."],
]);

export const FAULTS = new Map([
    ["Memory", "The office is out of memory. Nothing was changed."],
    ["Store", "The store of the office failed. It has to be restarted; then look whether the last change is there."],
]);

export const PROXY = new Map([
    [401, "Your sign-on has run out, or the name or the password is not right. What you typed stays here."],
    [403, "The proxy refuses this page."],
    [413, "The proxy takes at most 16 KiB of a call, and 1 MiB of an import."],
    [502, "The office does not answer."],
    [503, "The office is not available."],
    [504, "The office did not answer in time."],
]);

// the faults of a file of events
export const FILE_CAUSES = new Map([
    ["Header", "The first line has to be seq,moment,tag,event."],
    ["FieldCount", "The line has not four fields."],
    ["NotUtf8", "The line is not text in UTF-8."],
    ["BadNumber", "The number has to be 1 to 12 digits, the first not 0."],
    ["BadMoment", "The moment has to be as 2026-03-01T09:00:00Z, in UTC, from 2000 to 2099."],
    ["BadTag", "The tag has to be 1 to 24 capitals, digits, dashes, dots and underlines."],
    ["BadEvent", "The event has to be ACT, RTN, ACK, RESET, SUP or UNSUP."],
    ["TooLong", "A file has 10,000 rows at most."],
    ["TagUnknown", "The unit has no alarm of this tag."],
    ["MomentAhead", "The moment lies ahead."],
    ["SequenceClash", "Another event has this number."],
    ["MomentOutOfOrder", "An event with a smaller number is later, or one with a greater number is earlier."],
]);

export const STATES = new Map([
    ["Normal", "Normal"],
    ["Unacknowledged", "Unacknowledged"],
    ["Acknowledged", "Acknowledged"],
    ["ReturnedUnack", "Returned, unack."],
    ["LatchedUnack", "Latched, unack."],
    ["LatchedAck", "Latched, ack."],
]);

export const FLAGS = [["S", "shelved"], ["D", "suppressed by design"], ["O", "out of service"]];

// what has which form
const LONGEST = 604800; // seconds, a week
export const isUnit = (text) => /^[A-Z0-9]{1,8}$/.test(text);
export const isTag = (text) => /^[A-Z0-9._-]{1,24}$/.test(text);
export const isPerson = (text) => /^[a-z0-9.-]{1,32}$/.test(text);
export const isRemark = (text) => /^[ -~]{1,120}$/.test(text) && text.trim() !== "";
export const isMoment = (text) => /^20\d\d-\d\d-\d\dT\d\d:\d\d:\d\dZ$/.test(text)
    && new Date(text).toString() !== "Invalid Date" && momentText(Date.parse(text)) === text;

// A length of time as people say it, in seconds: a number of seconds, or days, hours, minutes and seconds, the longest first, as 45 min,
// 2 h or 1 d 6 h. Null if it is none, no whole number of seconds, or more than a week.
const UNITS = [["d", 86400, /^d(ays?)?$/], ["h", 3600, /^h(ours?)?$/], ["min", 60, /^min(utes?)?$/], ["s", 1, /^s(ec(onds?)?)?$/]];

export function secondsOf(text) {
    const typed = text.trim().toLowerCase().replace(/(\d),(\d)/g, "$1.$2");
    if (!/^(\d{1,9}|(\d{1,6}(\.\d{1,4})?\s*[a-z]+\s*)+)$/.test(typed)) {
        return null;
    }
    let seconds = /^\d+$/.test(typed) ? Number(typed) : 0;
    let place = -1;
    for (const [, number, name] of typed.matchAll(/([\d.]+)\s*([a-z]+)/g)) {
        const found = UNITS.findIndex((unit) => unit[2].test(name));
        if (found <= place) {
            return null; // not a unit, or not after the one before
        }
        place = found;
        seconds += Number(number) * UNITS[found][1];
    }
    const whole = Math.round(seconds);
    return Math.abs(seconds - whole) < 1e-6 && whole >= 1 && whole <= LONGEST ? whole : null;
}

export const REMARK_WANTED = "1 to 120 letters, digits and signs of ASCII";
export const LENGTH_WANTED = "a time of 1 s to 7 d, as 45 min, 2 h or 1 d 6 h";
export const TAG_WANTED = "1 to 24 capitals, digits, dashes, dots and underlines";
export const PERSON_WANTED = "1 to 32 small letters, digits, dots and dashes";

const two = (number) => String(number).padStart(2, "0");
export const momentText = (moment) => new Date(moment).toISOString().replace(".000", "");
export const dateText = (moment) => new Date(moment).toISOString().slice(0, 10);
export const clockText = (moment) => new Date(moment).toISOString().slice(11, 19);
export const minuteText = (moment) => new Date(moment).toISOString().slice(11, 16);

// the time by the zone of this computer, in brackets behind that of UTC; nothing where they are the same
export function hereText(moment) {
    const at = new Date(moment);
    return at.getTimezoneOffset() === 0 ? "" : ` (${two(at.getHours())}:${two(at.getMinutes())} here)`;
}

// a moment as the office writes it, for reading
export const plainMoment = (text) => String(text).replace("T", " ").replace("Z", "");

// A length of time as people say it: 45 min, 2 h, 1 d 6 h.
export function lengthText(seconds) {
    let rest = Math.max(0, Math.round(seconds));
    const parts = [];
    for (const [name, length] of UNITS) {
        if (rest >= length) {
            parts.push(`${Math.floor(rest / length)} ${name}`);
            rest %= length;
        }
    }
    return parts.join(" ") || "0 s";
}

// what is left of a shelf: from an hour on without seconds
export const leftText = (seconds) => lengthText(seconds < 3600 ? seconds : seconds - (seconds % 60));

// as it is sent, too
export const secondsText = (seconds) => (seconds < 60 ? lengthText(seconds) : `${lengthText(seconds)} (${seconds} s)`);

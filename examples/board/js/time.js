// The office's time. A moment has no fractions and is a little old when its answer comes, so of several the one that makes the clock
// latest is nearest. One that would put the clock back by seconds is believed. The computer's own clock is not used.

let offset = null;

export function hearMoment(moment) {
    const heard = moment - performance.now();
    if (offset === null || heard > offset || heard < offset - 3000) {
        offset = heard;
    }
}

export function momentNow() {
    return offset === null ? null : Math.floor((performance.now() + offset) / 1000) * 1000;
}

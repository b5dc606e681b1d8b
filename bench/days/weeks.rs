// From week to week of an event on one weekday, until a day is not before the one asked for. It checks nothing else.

#[inline(never)]
pub extern "C" fn next(first: u64, step: u64, weekday: u64, last: u64, from: u64) -> u64 {
    let mut day = (first + 5) / 7 * 7 + weekday - 5;
    while day < from || day < first {
        day += 7 * step;
    }
    if day <= last { day } else { u64::MAX }
}

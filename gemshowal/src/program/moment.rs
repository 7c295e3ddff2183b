//! Times in words. All are whole nanoseconds, as in `NAME.times`.

use crate::names::Times;

const MICRO: i64 = 1_000;
const MILLI: i64 = 1_000_000;
const SECOND: i64 = 1_000_000_000;
const DAY: i64 = 86_400 * SECOND;

/// The greatest number of a unit that is shown in it: four digits or fewer.
const FEW: i64 = 10_000;

/// Returns a time with all its microseconds: `0.000350 s`.
pub(crate) fn seconds(time: i64) -> String {
    let size = time.unsigned_abs();
    let (whole, rest) = (size / SECOND.unsigned_abs(), size % SECOND.unsigned_abs());
    let sign = if time < 0 { "-" } else { "" };
    format!("{sign}{whole}.{:06} s", rest / MICRO.unsigned_abs())
}

/// Returns the unit that shows a time with few digits.
fn unit(time: u64) -> (i64, &'static str) {
    let units = [(1, "ns"), (MICRO, "us"), (MILLI, "ms")];
    let fits = |(size, _): &(i64, _)| time < (FEW * size) as u64;
    units.into_iter().find(fits).unwrap_or((SECOND, "s"))
}

/// Returns a time in the unit that shows it with few digits: `350 us`.
pub(crate) fn span(time: i64) -> String {
    let (size, unit) = unit(time.unsigned_abs());
    format!("{} {unit}", time / size)
}

/// Returns times in one unit, that of the greatest: nanoseconds, microseconds or milliseconds.
pub(crate) fn spans(times: &[i64]) -> Vec<String> {
    let greatest = times.iter().map(|time| time.unsigned_abs()).max().unwrap_or(0);
    let (size, unit) = Some(unit(greatest)).filter(|it| it.0 < SECOND).unwrap_or((MILLI, "ms"));
    let decimals = if size == 1 { 0 } else { 3 };
    times.iter().map(|&time| format!("{:.decimals$} {unit}", time as f64 / size as f64)).collect()
}

/// Returns a time since 1970 as RFC 3339 writes it: `2026-11-27T01:22:18.123456Z`.
pub(crate) fn clock(since_1970: i64) -> String {
    let (year, month, day) = date(since_1970.div_euclid(DAY));
    let micros = since_1970.rem_euclid(DAY) / MICRO;
    let (seconds, micros) = (micros / 1_000_000, micros % 1_000_000);
    let (hour, minute, second) = (seconds / 3600, seconds / 60 % 60, seconds % 60);
    format!("{year:04}-{month:02}-{day:02}T{hour:02}:{minute:02}:{second:02}.{micros:06}Z")
}

/// Returns the date of a day since 1970. Years are counted from March: a leap day ends one.
fn date(day: i64) -> (i64, i64, i64) {
    const FROM_MARCH_0000: i64 = 719_468;
    const ERA: i64 = 146_097;
    let day = day + FROM_MARCH_0000;
    let (era, of_era) = (day.div_euclid(ERA), day.rem_euclid(ERA));
    let year = (of_era - of_era / 1_460 + of_era / 36_524 - of_era / 146_096) / 365;
    let of_year = of_era - (365 * year + year / 4 - year / 100);
    let month = (5 * of_year + 2) / 153;
    let day = of_year - (153 * month + 2) / 5 + 1;
    let (month, next) = if month < 10 { (month + 3, 0) } else { (month - 9, 1) };
    (400 * era + year + next, month, day)
}

/// Says when an event happened: by its node's clock, if that is known, and after the first event.
pub(crate) fn moment(times: &Times, after_first: i64) -> String {
    let clock = times.begin().and_then(|begin| begin.checked_add(after_first)).map(clock);
    match clock.as_deref().and_then(|clock| clock.split_once('T')) {
        Some((_, of_day)) => format!("{of_day} {}", seconds(after_first)),
        None => seconds(after_first),
    }
}

//! Stamps as dates: days since 1 January 1978, minutes of the day, ticks of 1/50 second.

use std::time::{Duration, SystemTime, UNIX_EPOCH};

use crate::calls::Stamp;

const FIRST_YEAR: u32 = 1978;
/// The year of the last day, 65,535.
const LAST_YEAR: u32 = 2157;
/// Days from 1 January 1970 to 1 January 1978.
const UNIX_DAYS: u64 = 2_922;
const TICKS_IN_SECOND: u16 = 50;

fn days_of_year(year: u32) -> u32 {
    let leap = year.is_multiple_of(4) && (!year.is_multiple_of(100) || year.is_multiple_of(400));
    365 + u32::from(leap)
}

fn days_of_month(year: u32, month: u32) -> u32 {
    match month {
        2 => days_of_year(year) - 337,
        4 | 6 | 9 | 11 => 30,
        _ => 31,
    }
}

/// Year, month and day of a day number.
fn date(day: u16) -> (u32, u32, u32) {
    let (mut year, mut month, mut left) = (FIRST_YEAR, 1, u32::from(day));
    while left >= days_of_year(year) {
        left -= days_of_year(year);
        year += 1;
    }
    while left >= days_of_month(year, month) {
        left -= days_of_month(year, month);
        month += 1;
    }
    (year, month, left + 1)
}

/// The day number of a date; nothing if there is no such date, or no number for it.
fn day_number(year: u32, month: u32, day: u32) -> Option<u16> {
    if !(FIRST_YEAR..=LAST_YEAR).contains(&year) || !(1..=12).contains(&month) {
        return None;
    }
    if !(1..=days_of_month(year, month)).contains(&day) {
        return None;
    }
    let years: u32 = (FIRST_YEAR..year).map(days_of_year).sum();
    let months: u32 = (1..month).map(|month| days_of_month(year, month)).sum();
    u16::try_from(years + months + day - 1).ok()
}

/// A stamp as `YYYY-MM-DD HH:MM:SS.CC`; minutes and ticks that no clock shows are printed as they are.
pub fn show(stamp: Stamp) -> String {
    let Stamp { day, minute, tick } = stamp;
    let (year, month, day) = date(day);
    let time = match (minute, tick) {
        (0..=1_439, 0..=2_999) => {
            let (second, part) = (tick / TICKS_IN_SECOND, tick % TICKS_IN_SECOND);
            format!("{:02}:{:02}:{second:02}.{:02}", minute / 60, minute % 60, part * 100 / TICKS_IN_SECOND)
        }
        _ => format!("{minute}m {tick}t"),
    };
    format!("{year}-{month:02}-{day:02} {time:<11}")
}

/// A date as `YYYY-MM-DD`, perhaps with `HH:MM` or `HH:MM:SS` behind a `T` or a space.
pub fn parse(text: &str) -> Option<Stamp> {
    let (date, time) = text.split_once(['T', ' ']).unwrap_or((text, "0:0"));
    let [year, month, day] = numbers(date, '-')?[..] else {
        return None;
    };
    let (hour, minute, second) = match numbers(time, ':')?[..] {
        [hour, minute] => (hour, minute, 0),
        [hour, minute, second] => (hour, minute, second),
        _ => return None,
    };
    if hour > 23 || minute > 59 || second > 59 {
        return None;
    }
    let tick = second as u16 * TICKS_IN_SECOND;
    Some(Stamp::new(day_number(year, month, day)?, (hour * 60 + minute) as u16, tick))
}

fn numbers(text: &str, between: char) -> Option<Vec<u32>> {
    let number = |word: &str| match word.bytes().all(|byte| byte.is_ascii_digit()) {
        true => word.parse().ok(),
        false => None,
    };
    text.split(between).map(number).collect()
}

/// The same for programs, with a `Z` for UTC; nothing if no clock shows it.
pub fn iso(stamp: Stamp) -> Option<String> {
    time(stamp).map(|_| show(stamp).replacen(' ', "T", 1) + "Z")
}

/// The stamp of a time, UTC, cut to 1/50 second; nothing before 1978 and after the last day.
pub fn of_time(time: SystemTime) -> Option<Stamp> {
    let since = time.duration_since(UNIX_EPOCH).ok()?;
    let (days, seconds) = (since.as_secs() / 86_400, since.as_secs() % 86_400);
    let milliseconds = seconds % 60 * 1_000 + u64::from(since.subsec_millis());
    let tick = milliseconds * u64::from(TICKS_IN_SECOND) / 1_000;
    let day = u16::try_from(days.checked_sub(UNIX_DAYS)?).ok()?;
    Some(Stamp::new(day, (seconds / 60) as u16, tick as u16))
}

/// The time of a stamp, UTC; nothing if no clock shows it.
pub fn time(stamp: Stamp) -> Option<SystemTime> {
    let Stamp { day, minute, tick } = stamp;
    if minute > 1_439 || tick > 2_999 {
        return None;
    }
    let seconds = (u64::from(day) + UNIX_DAYS) * 86_400 + u64::from(minute) * 60;
    let ticks = Duration::from_millis(u64::from(tick) * 1_000 / u64::from(TICKS_IN_SECOND));
    Some(UNIX_EPOCH + Duration::from_secs(seconds) + ticks)
}

/// The clock's date and time, UTC; the first stamp where it has none.
pub fn now() -> Stamp {
    of_time(SystemTime::now()).unwrap_or_default()
}

#[cfg(test)]
mod tests {
    use super::*;

    #[test]
    fn days_and_dates() {
        for (day, shown) in [(0, "1978-01-01"), (58, "1978-02-28"), (59, "1978-03-01"), (789, "1980-02-29")] {
            assert_eq!(&show(Stamp::new(day, 0, 0))[..10], shown);
        }
        assert_eq!(show(Stamp::new(65_535, 1_439, 2_999)), "2157-06-06 23:59:59.98");
        assert_eq!(show(Stamp::new(0, 1_440, 3_000)), "1978-01-01 1440m 3000t");
        for day in 0..=u16::MAX {
            let stamp = Stamp::new(day, 0, 0);
            assert_eq!(parse(&show(stamp)[..10]), Some(stamp));
        }
    }

    #[test]
    fn dates_are_read_or_turned_away() {
        assert_eq!(parse("1978-01-02T01:02:03"), Some(Stamp::new(1, 62, 150)));
        assert_eq!(parse("2000-02-29 23:59"), Some(Stamp::new(8_094, 1_439, 0)));
        for bad in [
            "",
            "1978",
            "1977-12-31",
            "2157-06-07",
            "1999-02-29",
            "1978-13-01",
            "1978-01-00",
            "1978-01-+1",
            "x-y-z",
            "1978-01-01T1",
            "1978-01-01T1:2:3:4",
            "1978-01-01T24:00",
            "1978-01-01T00:60",
        ] {
            assert_eq!(parse(bad), None, "{bad}");
        }
    }

    #[test]
    fn stamps_and_times() {
        for stamp in [Stamp::default(), Stamp::new(17_000, 601, 151), Stamp::new(65_535, 1_439, 2_999)] {
            assert_eq!(time(stamp).and_then(of_time), Some(stamp));
        }
        assert_eq!(time(Stamp::default()), Some(UNIX_EPOCH + Duration::from_secs(252_460_800)));
        assert_eq!([Stamp::new(0, 1_440, 0), Stamp::new(0, 0, 3_000)].map(time), [None, None]);
        let last = UNIX_EPOCH + Duration::from_secs((65_535 + UNIX_DAYS) * 86_400 + 86_399);
        assert_eq!(of_time(last), Some(Stamp::new(65_535, 1_439, 2_950)));
        for outside in [UNIX_EPOCH, last + Duration::from_secs(1), UNIX_EPOCH - Duration::from_secs(1)] {
            assert_eq!(of_time(outside), None);
        }
        assert_eq!(iso(Stamp::new(1, 62, 150)).as_deref(), Some("1978-01-02T01:02:03.00Z"));
        assert_eq!(iso(Stamp::new(0, 0, 3_000)), None);
    }

    #[test]
    fn the_clock_gives_a_stamp() {
        assert!(now().day > 0 && now().minute < 1_440 && now().tick < 3_000);
    }
}

//! The proleptic Gregorian calendar from year 0, by summing lengths of years and months.

use crate::calls::DateTime;
use std::sync::LazyLock;

const LAST_YEAR: u32 = 10_000;
const MINUTES_A_DAY: i64 = 24 * 60;

pub fn is_leap(year: u32) -> bool {
    year % 4 == 0 && (year % 100 != 0 || year % 400 == 0)
}

/// The month's days; 0 for no month.
pub fn month_length(year: u32, month: u32) -> u32 {
    match month {
        1 | 3 | 5 | 7 | 8 | 10 | 12 => 31,
        4 | 6 | 9 | 11 => 30,
        2 if is_leap(year) => 29,
        2 => 28,
        _ => 0,
    }
}

/// What a date picker is told: 0 past year 10000 too.
pub fn days_in_month(year: u32, month: u32) -> u32 {
    match year {
        0..=LAST_YEAR => month_length(year, month),
        _ => 0,
    }
}

pub fn is_day(year: u32, month: u32, day: u32) -> bool {
    1 <= day && day <= month_length(year, month)
}

/// The days before each year from 0 to 10001.
static YEAR_STARTS: LazyLock<Vec<i64>> = LazyLock::new(|| {
    let mut starts = vec![0];
    for year in 0..=LAST_YEAR {
        let length: u32 = (1..=12).map(|month| month_length(year, month)).sum();
        starts.push(starts[year as usize] + length as i64);
    }
    starts
});

/// The days before a year; past the years summed, by as many in each 400 years as in the first.
pub fn year_start(year: u32) -> u64 {
    match YEAR_STARTS.get(year as usize) {
        Some(start) => *start as u64,
        None => (year / 400) as u64 * YEAR_STARTS[400] as u64 + YEAR_STARTS[(year % 400) as usize] as u64,
    }
}

/// Minutes from 0000-01-01T00:00.
pub fn minutes(time: DateTime) -> i64 {
    let months: u32 = (1..time.month).map(|month| month_length(time.year, month)).sum();
    let days = YEAR_STARTS[time.year as usize] + months as i64 + time.day as i64 - 1;
    days * MINUTES_A_DAY + time.hour as i64 * 60 + time.minute as i64
}

/// The date and time that many minutes from 0000-01-01T00:00; none before it, and none after year 10000.
pub fn at_minutes(minutes: i64) -> Option<DateTime> {
    let mut days = minutes.div_euclid(MINUTES_A_DAY);
    let minutes = minutes.rem_euclid(MINUTES_A_DAY) as u32;
    if days < 0 || days >= *YEAR_STARTS.last()? {
        return None;
    }
    let year = YEAR_STARTS.partition_point(|start| *start <= days) - 1;
    days -= YEAR_STARTS[year];
    let year = year as u32;
    let mut month = 1;
    while days >= month_length(year, month) as i64 {
        days -= month_length(year, month) as i64;
        month += 1;
    }
    Some(DateTime { year, month, day: days as u32 + 1, hour: minutes / 60, minute: minutes % 60 })
}

pub fn shifted(time: DateTime, by: i32) -> Option<DateTime> {
    at_minutes(minutes(time) + by as i64)
}

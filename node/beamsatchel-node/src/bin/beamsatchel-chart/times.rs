//! Seconds since 1970 in UTC as dates, and back, in the calendar that ISO 8601 uses.

pub const MINUTE: i128 = 60;
pub const HOUR: i128 = 60 * MINUTE;
pub const DAY: i128 = 24 * HOUR;

/// The day of a date, counted from 1970-01-01. The month may be any number: 13 is the first of the next year.
pub fn day_of(year: i128, month: i128, day: i128) -> i128 {
    // Years begin in March here, so that a leap day is a year's last.
    let months = year * 12 + month - 3;
    let (year, month) = (months.div_euclid(12), months.rem_euclid(12));
    let leap_days = year.div_euclid(4) - year.div_euclid(100) + year.div_euclid(400);
    let days_before_month = (153 * month + 2) / 5;
    365 * year + leap_days + days_before_month + day - 1 - 719_468
}

/// The date of a day: year, month from 1, day from 1.
pub fn date_of(day: i128) -> (i128, i128, i128) {
    let day = day + 719_468;
    let (era, day_of_era) = (day.div_euclid(146_097), day.rem_euclid(146_097));
    let year_of_era =
        (day_of_era - day_of_era / 1_460 + day_of_era / 36_524 - day_of_era / 146_096) / 365;
    let day_of_year = day_of_era - (365 * year_of_era + year_of_era / 4 - year_of_era / 100);
    let month = (5 * day_of_year + 2) / 153;
    let day = day_of_year - (153 * month + 2) / 5 + 1;
    let months = (400 * era + year_of_era) * 12 + month + 2;
    (months.div_euclid(12), months.rem_euclid(12) + 1, day)
}

/// A year with four digits, or with a sign and as many as it needs.
pub fn year(year: i128) -> String {
    match year {
        0..=9999 => format!("{year:04}"),
        _ => format!("{year:+05}"),
    }
}

/// The date of a time, as in 2026-03-02.
pub fn date(time: i128) -> String {
    let (y, month, day) = date_of(time.div_euclid(DAY));
    format!("{}-{month:02}-{day:02}", year(y))
}

/// The time of day, as in 06:00:00.
pub fn time_of_day(time: i128) -> String {
    let second = time.rem_euclid(DAY);
    let (hour, minute) = (second / HOUR, second % HOUR / MINUTE);
    format!("{hour:02}:{minute:02}:{:02}", second % MINUTE)
}

/// A time, as in 2026-03-02T06:00:00Z.
pub fn dated(time: i128) -> String {
    format!("{}T{}Z", date(time), time_of_day(time))
}

/// A time since the first record, as in T+26:00:00.
pub fn elapsed(time: i128) -> String {
    let (hours, minutes) = (time / HOUR, time % HOUR / MINUTE);
    format!("T+{hours:02}:{minutes:02}:{:02}", time % MINUTE)
}

/// How long, in its two largest units.
pub fn duration(seconds: i128) -> String {
    let units = [(DAY, "d"), (HOUR, "h"), (MINUTE, "min"), (1, "s")];
    let first = units.iter().position(|(unit, _)| seconds >= *unit);
    let mut left = seconds;
    let mut words = Vec::new();
    for (unit, name) in units.iter().skip(first.unwrap_or(3)).take(2) {
        let count = left / unit;
        left %= unit;
        if count > 0 || seconds == 0 {
            words.push(format!("{count} {name}"));
        }
    }
    words.join(" ")
}

/// A time such as 2026-03-02T06:00:00Z, or a number of seconds since 1970.
pub fn parse(text: &str) -> Option<i128> {
    let (sign, digits) = match text.strip_prefix('-') {
        Some(digits) => (-1, digits),
        None => (1, text),
    };
    if (1..=18).contains(&digits.len()) && digits.bytes().all(|byte| byte.is_ascii_digit()) {
        return Some(sign * digits.parse::<i128>().ok()?);
    }
    let bytes = text.as_bytes();
    let form = b"0000-00-00T00:00:00Z";
    let alike = |(byte, form): (&u8, &u8)| match form {
        b'0' => byte.is_ascii_digit(),
        _ => byte == form,
    };
    if bytes.len() != form.len() || !bytes.iter().zip(form).all(alike) {
        return None;
    }
    let number = |from: usize, to: usize| text[from..to].parse::<i128>().ok();
    let (year, month, day) = (number(0, 4)?, number(5, 7)?, number(8, 10)?);
    let (hour, minute, second) = (number(11, 13)?, number(14, 16)?, number(17, 19)?);
    let days = day_of(year, month, day);
    // A day that the month does not have is another date.
    let good = date_of(days) == (year, month, day) && hour < 24 && minute < 60 && second < 60;
    good.then_some(days * DAY + hour * HOUR + minute * MINUTE + second)
}

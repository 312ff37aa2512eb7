//! The Gregorian calendar with the TARGET closing days.

/// A day, counted from 1 March of the year 0, a Wednesday.
pub type Day = i32;

/// A count of calendar days.
pub type Days = i32;

/// The first and last date of events and rows.
pub const FIRST_DATE: i64 = 20100101;
pub const LAST_DATE: i64 = 21891231;

/// Last days and kept dues are worked out in these years.
pub const FIRST_YEAR: i32 = 2009;
pub const LAST_YEAR: i32 = 2193;

/// The day of a date written YYYYMMDD, if it is a real day in range.
pub fn day_in_range(date: i64) -> Option<Day> {
    if !(FIRST_DATE..=LAST_DATE).contains(&date) {
        return None;
    }
    let date = date as i32;
    let (year, month, day) = (date / 10000, date / 100 % 100, date % 100);
    let real = (1..=12).contains(&month) && (1..=month_length(year, month)).contains(&day);
    real.then(|| day_number(year, month, day))
}

fn is_leap(year: i32) -> bool {
    year % 4 == 0 && (year % 100 != 0 || year % 400 == 0)
}

fn month_length(year: i32, month: i32) -> i32 {
    match month {
        2 => 28 + i32::from(is_leap(year)),
        4 | 6 | 9 | 11 => 30,
        _ => 31,
    }
}

/// Years are taken to begin in March, so that a leap day ends its year.
pub const fn day_number(year: i32, month: i32, day: i32) -> Day {
    let (year, month) = if month > 2 {
        (year, month - 3)
    } else {
        (year - 1, month + 9)
    };
    365 * year + year / 4 - year / 100 + year / 400 + (153 * month + 2) / 5 + day - 1
}

/// Year, month and day of the month.
pub fn civil(day: Day) -> (i32, i32, i32) {
    let era = day / 146_097;
    let day_of_era = day % 146_097;
    let year_of_era =
        (day_of_era - day_of_era / 1460 + day_of_era / 36_524 - day_of_era / 146_096) / 365;
    let day_of_year = day_of_era - (365 * year_of_era + year_of_era / 4 - year_of_era / 100);
    let month = (5 * day_of_year + 2) / 153;
    let day_of_month = day_of_year - (153 * month + 2) / 5 + 1;
    let year = 400 * era + year_of_era;
    if month < 10 {
        (year, month + 3, day_of_month)
    } else {
        (year + 1, month - 9, day_of_month)
    }
}

/// The same day number `months` on, or that month's last day.
pub fn months_after(day: Day, months: i32) -> Day {
    let (year, month, day) = civil(day);
    let month = year * 12 + month - 1 + months;
    let (year, month) = (month / 12, month % 12 + 1);
    day_number(year, month, day.min(month_length(year, month)))
}

/// Easter Sunday, by Oudin's way.
pub fn easter(year: i32) -> Day {
    let century = year / 100;
    let golden = year % 19;
    let skew = (century - 17) / 25;
    let moon = (century - century / 4 - (century - skew) / 3 + 19 * golden + 15) % 30;
    let moon = moon - (moon / 28) * (1 - (29 / (moon + 1)) * ((21 - golden) / 11));
    let weekday = (year + year / 4 + moon + 2 - century + century / 4) % 7;
    // Days from 28 March to the Sunday.
    day_number(year, 3, 28) + moon - weekday
}

fn is_weekend(day: Day) -> bool {
    matches!(day % 7, 3 | 4)
}

/// All business days of the years worked with, in order, and for each day how
/// many of them there are up to and including it.
#[derive(Clone)]
pub struct Calendar {
    first: Day,
    business_days: Vec<Day>,
    up_to: Vec<u32>,
}

impl Calendar {
    pub fn new() -> Calendar {
        let first = day_number(FIRST_YEAR, 1, 1);
        let mut calendar = Calendar {
            first,
            business_days: Vec::new(),
            up_to: Vec::new(),
        };
        for year in FIRST_YEAR..=LAST_YEAR {
            calendar.add_year(year);
        }
        calendar
    }

    fn add_year(&mut self, year: i32) {
        let easter = easter(year);
        let closed = [
            day_number(year, 1, 1),
            easter - 2,
            easter + 1,
            day_number(year, 5, 1),
            day_number(year, 12, 25),
            day_number(year, 12, 26),
        ];
        for day in day_number(year, 1, 1)..day_number(year + 1, 1, 1) {
            if !is_weekend(day) && !closed.contains(&day) {
                self.business_days.push(day);
            }
            self.up_to.push(self.business_days.len() as u32);
        }
    }

    fn count_up_to(&self, day: Day) -> usize {
        self.up_to[(day - self.first) as usize] as usize
    }

    pub fn is_business_day(&self, day: Day) -> bool {
        self.count_up_to(day) > self.count_up_to(day - 1)
    }

    /// The n-th business day strictly after the day, n from 1.
    pub fn business_days_after(&self, n: usize, day: Day) -> Day {
        self.business_days[self.count_up_to(day) + n - 1]
    }

    /// The first business day on or after the day.
    pub fn business_day_from(&self, day: Day) -> Day {
        self.business_days_after(1, day - 1)
    }

    /// The kept due, which is the first business day on or after the requested
    /// date, and the days that it slid: how much later it is.
    pub fn kept_due(&self, requested: Day) -> (Day, Days) {
        let kept_due = self.business_day_from(requested);
        (kept_due, kept_due - requested)
    }

    /// The last business day strictly before the day.
    pub fn business_day_before(&self, day: Day) -> Day {
        self.business_days[self.count_up_to(day - 1) - 1]
    }

    /// The last day of a return or reversal of a collection settled on the day.
    pub fn last_return(&self, settled: Day) -> Day {
        self.business_days_after(5, settled)
    }

    pub fn last_authorised_refund(&self, settled: Day) -> Day {
        self.business_days_after(2, settled + 56)
    }

    pub fn last_unauthorised_refund(&self, settled: Day) -> Day {
        self.business_days_after(4, months_after(settled, 13) + 30)
    }
}

/// A mandate is lapsed for a kept due after this day.
pub fn lapse_limit(last_presented_or_signing: Day) -> Day {
    months_after(last_presented_or_signing, 36)
}

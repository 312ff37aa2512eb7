//! Rough books of the events sent, to plan further ones by.

use crate::calendar::{civil, day_in_range, lapse_limit, Calendar, Day, FIRST_DATE, LAST_DATE};

/// Kind, date, mandate, a, b, c, amount, second date, code.
pub type Fields = [i64; 9];

pub const MANDATE_ROWS: usize = 128;
pub const COLLECTION_ROWS: usize = 256;

pub struct Mandate {
    pub number: i64,
    pub one_off: bool,
    pub live: bool,
    pub first_due: bool,
    /// The kept due last presented, or the signing date.
    pub counted_from: Day,
}

pub struct Collection {
    pub number: i64,
    /// The mandate's place in the books.
    pub mandate: usize,
    pub amount: i64,
    pub kept_due: Day,
    pub state: State,
}

#[derive(Clone, Copy, PartialEq)]
pub enum State {
    Presented,
    Rejected,
    Settled(Day),
    Undone,
}

pub struct Books {
    pub calendar: Calendar,
    pub first_day: Day,
    pub last_day: Day,
    pub latest: Day,
    pub creditors: Vec<i64>,
    pub mandates: Vec<Mandate>,
    pub collections: Vec<Collection>,
}

impl Books {
    pub fn new() -> Books {
        let day = |date| day_in_range(date).expect("both ends of the range are days");
        Books {
            calendar: Calendar::new(),
            first_day: day(FIRST_DATE),
            last_day: day(LAST_DATE),
            latest: 0,
            creditors: Vec::new(),
            mandates: Vec::new(),
            collections: Vec::new(),
        }
    }

    pub fn date(&self, day: Day) -> i64 {
        let (year, month, day) = civil(day);
        i64::from(year * 10000 + month * 100 + day)
    }

    /// Closed, and not as a Saturday or Sunday.
    pub fn is_holiday(&self, day: Day) -> bool {
        !matches!(day % 7, 3 | 4) && !self.calendar.is_business_day(day)
    }

    pub fn collections_full(&self) -> bool {
        self.collections.len() == COLLECTION_ROWS
    }

    pub fn mandates_full(&self) -> bool {
        self.mandates.len() == MANDATE_ROWS
    }

    pub fn is_full(&self) -> bool {
        self.collections_full() && self.mandates_full()
    }

    /// The places of the live mandates.
    pub fn live_mandates(&self) -> Vec<usize> {
        (0..self.mandates.len())
            .filter(|&place| self.mandates[place].live)
            .collect()
    }

    fn mandate(&self, number: i64) -> Option<usize> {
        self.mandates.iter().position(|row| row.number == number)
    }

    fn collection(&self, number: i64) -> Option<usize> {
        self.collections.iter().position(|row| row.number == number)
    }

    /// Books an event whose fields are within their limits; tells whether it
    /// is believed accepted.
    pub fn take(&mut self, event: &Fields) -> bool {
        let Some(day) = day_in_range(event[1]) else {
            return false;
        };
        let accepted = day >= self.latest && self.enter(day, event).is_some();
        if accepted {
            self.latest = day;
        }
        accepted
    }

    /// Books the event, or gives None if the rules refuse it.
    fn enter(&mut self, day: Day, event: &Fields) -> Option<()> {
        let [kind, _, mandate, a, ..] = *event;
        match kind {
            1 => {
                holds(!self.creditors.contains(&a))?;
                self.creditors.push(a);
            }
            2 => self.enter_mandate(event)?,
            3 => {
                holds(event[8] == 0 || self.creditors.contains(&a))?;
                let place = self.live(mandate)?;
                let row = &mut self.mandates[place];
                row.first_due |= event[8] == 0 && !row.one_off;
            }
            4 => {
                let place = self.live(mandate)?;
                self.mandates[place].live = false;
            }
            5 => self.enter_collect(day, event)?,
            _ => self.enter_outcome(day, event)?,
        }
        Some(())
    }

    fn live(&self, mandate: i64) -> Option<usize> {
        self.mandate(mandate)
            .filter(|&place| self.mandates[place].live)
    }

    fn enter_mandate(&mut self, event: &Fields) -> Option<()> {
        let [_, _, number, creditor, _, _, _, signing, code] = *event;
        holds(self.creditors.contains(&creditor))?;
        holds(self.mandate(number).is_none() && !self.mandates_full())?;
        self.mandates.push(Mandate {
            number,
            one_off: code == 1,
            live: true,
            first_due: code == 0,
            counted_from: day_in_range(signing)?,
        });
        Some(())
    }

    fn enter_collect(&mut self, day: Day, event: &Fields) -> Option<()> {
        let [_, _, mandate, number, _, _, amount, requested, code] = *event;
        holds(self.collection(number).is_none() && !self.collections_full())?;
        let place = self.live(mandate)?;
        let row = &self.mandates[place];
        let code_taken = match (row.one_off, row.first_due) {
            (true, _) => code == 3,
            (_, true) => code == 0,
            _ => code == 1 || code == 2,
        };
        let requested = day_in_range(requested)?;
        let (kept_due, _) = self.calendar.kept_due(requested);
        let in_time = day <= self.calendar.business_day_before(kept_due);
        holds(code_taken && in_time && requested <= day + 14)?;
        holds(kept_due <= lapse_limit(row.counted_from))?;
        self.collections.push(Collection {
            number,
            mandate: place,
            amount,
            kept_due,
            state: State::Presented,
        });
        let row = &mut self.mandates[place];
        row.first_due = false;
        row.live = code < 2;
        row.counted_from = kept_due;
        Some(())
    }

    fn enter_outcome(&mut self, day: Day, event: &Fields) -> Option<()> {
        let [kind, _, _, number, ..] = *event;
        let place = self.collection(number)?;
        let row = &mut self.collections[place];
        holds(kind == 7 || self.calendar.is_business_day(day))?;
        row.state = match (kind, row.state) {
            (6, State::Presented) if day >= row.kept_due => State::Settled(day),
            (7, State::Presented) => State::Rejected,
            (8 | 10, State::Settled(settled)) => {
                holds(day <= self.calendar.last_return(settled))?;
                State::Undone
            }
            (9, State::Settled(settled)) => {
                let last_day = match event[8] {
                    0 => self.calendar.last_authorised_refund(settled),
                    _ => self.calendar.last_unauthorised_refund(settled),
                };
                holds(day <= last_day)?;
                State::Undone
            }
            _ => return None,
        };
        Some(())
    }
}

/// What a field may hold.
#[derive(Clone, Copy)]
pub enum Limits {
    Numbers(i64, i64),
    Date,
}

/// The limits of mandate, a, b, c, amount, second date and code.
pub fn limits(event: &Fields) -> [Limits; 7] {
    const ZERO: Limits = Limits::Numbers(0, 0);
    const NUMBER: Limits = Limits::Numbers(1, 999_999_999);
    const AMOUNT: Limits = Limits::Numbers(1, 99_999_999_999);
    const CREDITOR: Limits = Limits::Numbers(1, 256);
    const DEBTOR: Limits = Limits::Numbers(1, 4096);
    const BANK: Limits = Limits::Numbers(1, 64);
    const RATE: Limits = Limits::Numbers(0, 9_999);
    const TWO_CODES: Limits = Limits::Numbers(0, 1);
    const FOUR_CODES: Limits = Limits::Numbers(0, 3);
    use Limits::Date;
    match (event[0], event[8]) {
        (1, _) => [ZERO, CREDITOR, BANK, ZERO, ZERO, ZERO, ZERO],
        (2, _) => [NUMBER, CREDITOR, DEBTOR, BANK, ZERO, Date, TWO_CODES],
        (3, 0) => [NUMBER, ZERO, ZERO, BANK, ZERO, ZERO, TWO_CODES],
        (3, _) => [NUMBER, CREDITOR, ZERO, ZERO, ZERO, ZERO, TWO_CODES],
        (4, _) => [NUMBER, ZERO, ZERO, ZERO, ZERO, ZERO, ZERO],
        (5, _) => [NUMBER, NUMBER, ZERO, ZERO, AMOUNT, Date, FOUR_CODES],
        (9, _) => [ZERO, NUMBER, RATE, ZERO, ZERO, ZERO, TWO_CODES],
        _ => [ZERO, NUMBER, ZERO, ZERO, ZERO, ZERO, ZERO],
    }
}

fn holds(condition: bool) -> Option<()> {
    condition.then_some(())
}

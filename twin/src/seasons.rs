//! The profile `calendar`: seasons around closed days and last days.
//!
//! Each season presents some collections a few days before Easter, 1 May or
//! Christmas, then settles them on their kept dues and undoes some on their
//! last days. Between the two, the later seasons send events that the calendar
//! alone refuses. They leave the latest date and one collection row as they are.

use crate::books::{Books, Fields, State, COLLECTION_ROWS, MANDATE_ROWS};
use crate::calendar::{civil, day_number, easter, lapse_limit, Day};
use crate::random::Random;
use std::collections::VecDeque;

const SEASONS: usize = 17;
/// The first seasons fill the tables; the others also send refused events.
const SHORT_SEASONS: usize = 11;
const ROWS_A_SEASON: usize = (COLLECTION_ROWS - 1) / SEASONS;
const CREDITORS: usize = 8;
/// A season's settles, and the undoings of every third collection.
const OUTCOMES: usize = ROWS_A_SEASON + ROWS_A_SEASON.div_ceil(3);
/// All accepted events; the last season stays open.
const ACCEPTED: usize =
    CREDITORS + MANDATE_ROWS + SEASONS * ROWS_A_SEASON + (SEASONS - 1) * OUTCOMES;

pub struct Seasons {
    random: Random,
    books: Books,
    /// The latest date, on which a season's collections are presented.
    today: Day,
    opened: usize,
    /// Events sent next, in order.
    ready: VecDeque<Fields>,
    refused_a_season: usize,
    refused_left: usize,
}

impl Iterator for Seasons {
    type Item = Fields;

    fn next(&mut self) -> Option<Fields> {
        while self.ready.is_empty() && self.refused_left == 0 {
            self.change();
        }
        self.ready.pop_front().or_else(|| {
            self.refused_left -= 1;
            Some(self.refused())
        })
    }
}

impl Seasons {
    pub fn new(seed: u64, lines: usize) -> Seasons {
        let mut random = Random::new(seed, "calendar");
        let today = day_number(random.between(2014, 2175) as i32, 1, 1) + random.below(365) as Day;
        let mut seasons = Seasons {
            random,
            books: Books::new(),
            today,
            opened: 0,
            ready: VecDeque::new(),
            refused_a_season: lines.saturating_sub(ACCEPTED) / (SEASONS - SHORT_SEASONS),
            refused_left: 0,
        };
        (1..=CREDITORS).for_each(|creditor| seasons.add_creditor(creditor as i64));
        (0..MANDATE_ROWS).for_each(|row| seasons.add_mandate(row));
        seasons
    }

    fn event(&self, kind: i64, day: Day, mandate: i64, a: i64) -> Fields {
        [kind, self.books.date(day), mandate, a, 0, 0, 0, 0, 0]
    }

    /// Books an event that must be accepted, and readies it.
    fn send(&mut self, event: Fields) {
        assert!(self.books.take(&event), "refused: {event:?}");
        self.ready.push_back(event);
    }

    fn add_creditor(&mut self, creditor: i64) {
        let mut event = self.event(1, self.today, 0, creditor);
        event[4] = self.random.between(1, 64);
        self.send(event);
    }

    /// Every eighth is a one-off; all were signed in the last thirty months.
    fn add_mandate(&mut self, row: usize) {
        let number = self.fresh_number();
        let creditor = self.random.between(1, CREDITORS as i64);
        let mut event = self.event(2, self.today, number, creditor);
        event[4] = self.random.between(1, 4096);
        event[5] = self.random.between(1, 64);
        event[7] = self.books.date(self.today - self.random.below(900) as Day);
        event[8] = i64::from(row % 8 == 7);
        self.send(event);
    }

    fn fresh_number(&mut self) -> i64 {
        self.random.between(1, 999_999_999)
    }

    // ---- Accepted events ----

    /// Closes one season and opens the next; the last one stays open.
    fn change(&mut self) {
        if self.opened < SEASONS {
            self.close();
            self.open();
            self.opened += 1;
        }
        if self.opened > SHORT_SEASONS {
            self.refused_left = self.refused_a_season.max(1);
        }
    }

    fn open(&mut self) {
        let special = self.next_special();
        self.today = special - self.random.between(1, 8) as Day;
        for _ in 0..ROWS_A_SEASON {
            let collect = self.accepted_collect(special);
            self.send(collect);
        }
    }

    /// The first Good Friday, 1 May or Christmas that is far enough ahead.
    fn next_special(&self) -> Day {
        let (year, ..) = civil(self.today);
        let days = [year, year + 1].map(|year| {
            let may = day_number(year, 5, 1);
            [easter(year) - 2, may, day_number(year, 12, 25)]
        });
        let mut days = days.into_iter().flatten();
        let ahead = days.find(|&day| day > self.today + 8);
        ahead.expect("the next year has such days")
    }

    fn accepted_collect(&mut self, special: Day) -> Fields {
        loop {
            let mandate = self.live_mandate();
            let requested = match self.random.chance(60) {
                true => special + self.random.between(-1, 4) as Day,
                false => self.today + self.random.between(2, 14) as Day,
            };
            if self.is_taken(mandate, self.today, requested) {
                return self.collect(mandate, self.today, requested);
            }
        }
    }

    /// Settles on the kept dues, and some undoings on the last days after.
    fn close(&mut self) {
        let season = self.books.collections.len().saturating_sub(ROWS_A_SEASON);
        let mut events = Vec::new();
        for row in &self.books.collections[season..] {
            events.push(self.event(6, row.kept_due, 0, row.number));
        }
        for place in (season..self.books.collections.len()).step_by(3) {
            events.push(self.undo_on_last_day(place));
        }
        events.sort_by_key(|event| event[1]);
        for event in events {
            self.send(event);
        }
        self.today = self.books.latest.max(self.today);
    }

    /// An undoing of what is settled on its kept due.
    fn undo_on_last_day(&mut self, place: usize) -> Fields {
        let (number, due) = {
            let row = &self.books.collections[place];
            (row.number, row.kept_due)
        };
        let (kind, code) = self.random.pick(&[(8, 0), (9, 0), (10, 0)]);
        let mut event = self.event(kind, self.last_day(kind, code, due), 0, number);
        event[4] = self.rate(kind);
        event
    }

    // ---- Events that the calendar refuses ----

    fn refused(&mut self) -> Fields {
        let event = match self.random.below(20) {
            0..=7 => self.refused_collect(),
            8..=10 => self.early_settle(),
            11..=18 => self.late_undoing(),
            _ => self.wrong_state(),
        };
        assert!(!self.books.take(&event), "accepted: {event:?}");
        event
    }

    /// Over 14 days ahead, too near the kept due, or beyond the 36 months.
    fn refused_collect(&mut self) -> Fields {
        loop {
            let mandate = self.live_mandate();
            let (day, requested) = match self.random.below(3) {
                0 => self.long_lead(),
                1 => self.short_lead(),
                _ => self.around_lapse(mandate),
            };
            if !self.is_taken(mandate, day, requested) {
                return self.collect(mandate, day, requested);
            }
        }
    }

    fn long_lead(&mut self) -> (Day, Day) {
        let requested = self.near_closed_day().max(self.today + 15);
        let day = requested - self.random.between(15, 18) as Day;
        (day.max(self.today), requested)
    }

    /// After the last business day before the kept due.
    fn short_lead(&mut self) -> (Day, Day) {
        let requested = self.near_closed_day();
        let (kept_due, _) = self.books.calendar.kept_due(requested);
        let latest = self.books.calendar.business_day_before(kept_due);
        let day = latest + self.random.between(1, 3) as Day;
        (day.max(self.today), requested)
    }

    fn around_lapse(&mut self, mandate: usize) -> (Day, Day) {
        let limit = lapse_limit(self.books.mandates[mandate].counted_from);
        let requested = limit.max(self.today + 4) + self.random.between(-1, 6) as Day;
        let day = requested - self.random.between(4, 14) as Day;
        (day.max(self.today), requested)
    }

    /// A settle before the kept due.
    fn early_settle(&mut self) -> Fields {
        let place = self.collection_in(|state| state == State::Presented);
        let row = &self.books.collections[place];
        let day = self
            .random
            .between(self.today.into(), (row.kept_due - 1).into());
        self.event(6, day as Day, 0, row.number)
    }

    /// An undoing after the last day.
    fn late_undoing(&mut self) -> Fields {
        let place = self.collection_in(|state| matches!(state, State::Settled(_)));
        let row = &self.books.collections[place];
        let State::Settled(settled) = row.state else {
            unreachable!("a settled one was asked for")
        };
        let number = row.number;
        let (kind, code) = self.random.pick(&[(8, 0), (9, 0), (9, 1), (10, 0)]);
        let first = self.today.max(self.last_day(kind, code, settled) + 1);
        let day = match self.random.chance(60) {
            true => first + self.random.below(6) as Day,
            false => self.near_closed_day().max(first),
        };
        let mut event = self.event(kind, day, 0, number);
        event[4] = self.rate(kind);
        event[8] = code;
        event
    }

    /// A reject of what is settled or undone, or a return of what is not settled.
    fn wrong_state(&mut self) -> Fields {
        let day = self.near_closed_day();
        let kind = self.random.pick(&[7, 8]);
        let place = self.collection_in(|state| match state {
            State::Settled(_) => kind == 7,
            State::Presented => kind == 8,
            _ => true,
        });
        self.event(kind, day, 0, self.books.collections[place].number)
    }

    // ---- What they are made of ----

    /// A day within three of a closed day, in this year or the next three.
    fn near_closed_day(&mut self) -> Day {
        let year = civil(self.today).0 + self.random.below(4) as i32;
        let easter = easter(year);
        let closed = [
            easter - 2,
            easter + 1,
            day_number(year, 5, 1),
            day_number(year, 12, 25),
            day_number(year + 1, 1, 1),
        ];
        let day = self.random.pick(&closed) + self.random.between(-3, 3) as Day;
        day.max(self.today + self.random.below(14) as Day)
    }

    fn live_mandate(&mut self) -> usize {
        loop {
            let place = self.random.below(MANDATE_ROWS as u64) as usize;
            if self.books.mandates[place].live {
                return place;
            }
        }
    }

    fn collection_in(&mut self, fits: impl Fn(State) -> bool) -> usize {
        loop {
            let place = self.random.below(self.books.collections.len() as u64) as usize;
            if fits(self.books.collections[place].state) {
                return place;
            }
        }
    }

    fn is_taken(&self, mandate: usize, day: Day, requested: Day) -> bool {
        let calendar = &self.books.calendar;
        let (kept_due, _) = calendar.kept_due(requested);
        let limit = lapse_limit(self.books.mandates[mandate].counted_from);
        requested <= day + 14 && day <= calendar.business_day_before(kept_due) && kept_due <= limit
    }

    fn collect(&mut self, mandate: usize, day: Day, requested: Day) -> Fields {
        let row = &self.books.mandates[mandate];
        let code = match (row.one_off, row.first_due) {
            (true, _) => 3,
            (_, true) => 0,
            _ => 1,
        };
        let number = row.number;
        let collection = self.fresh_number();
        let mut event = self.event(5, day, number, collection);
        event[6] = self.random.between(1, 500_000);
        event[7] = self.books.date(requested);
        event[8] = code;
        event
    }

    fn last_day(&self, kind: i64, code: i64, settled: Day) -> Day {
        let calendar = &self.books.calendar;
        match (kind, code) {
            (9, 0) => calendar.last_authorised_refund(settled),
            (9, _) => calendar.last_unauthorised_refund(settled),
            _ => calendar.last_return(settled),
        }
    }

    fn rate(&mut self, kind: i64) -> i64 {
        match kind {
            9 => self.random.between(0, 9_999),
            _ => 0,
        }
    }
}

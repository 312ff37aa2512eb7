//! The profile `worst`: lookups of the last rows of full tables and of numbers
//! that are not there. Half of the numbers follow each other, with gaps, half
//! are random ones of nine digits.

use crate::books::{Books, Fields, COLLECTION_ROWS, MANDATE_ROWS};
use crate::calendar::{day_number, Day};
use crate::random::Random;
use std::collections::VecDeque;

const CREDITORS: i64 = 4;
/// Collections settled before the lookups.
const SETTLED: usize = 128;
/// The following numbers of a table begin here.
const FOLLOWING: i64 = 1_000;

pub struct Lookups {
    random: Random,
    books: Books,
    /// Events that fill the tables.
    ready: VecDeque<Fields>,
    today: Day,
    mandates: Vec<i64>,
    collections: Vec<i64>,
}

impl Iterator for Lookups {
    type Item = Fields;

    fn next(&mut self) -> Option<Fields> {
        self.ready.pop_front().or_else(|| Some(self.lookup()))
    }
}

impl Lookups {
    pub fn new(seed: u64) -> Lookups {
        let mut random = Random::new(seed, "worst");
        let books = Books::new();
        let day = day_number(random.between(2010, 2188) as i32, 1, 1) + random.below(300) as Day;
        let mandates = numbers(MANDATE_ROWS, 1, &mut random);
        let collections = numbers(COLLECTION_ROWS, 0, &mut random);
        let mut lookups = Lookups {
            today: books.calendar.business_day_from(day),
            random,
            books,
            ready: VecDeque::new(),
            mandates,
            collections,
        };
        lookups.fill();
        lookups
    }

    fn event(&self, kind: i64, mandate: i64, a: i64) -> Fields {
        [kind, self.books.date(self.today), mandate, a, 0, 0, 0, 0, 0]
    }

    fn send(&mut self, event: Fields) {
        assert!(self.books.take(&event), "refused: {event:?}");
        self.ready.push_back(event);
    }

    /// The last collection is presented on the day the first ones settle.
    fn fill(&mut self) {
        for creditor in 1..=CREDITORS {
            let mut event = self.event(1, 0, creditor);
            event[4] = creditor;
            self.send(event);
        }
        (0..MANDATE_ROWS).for_each(|row| self.add_mandate(row));
        (0..COLLECTION_ROWS - 1).for_each(|row| self.add_collection(row));
        self.today = self.books.collections[0].kept_due;
        for row in 0..SETTLED {
            self.send(self.event(6, 0, self.collections[row]));
        }
        self.add_collection(COLLECTION_ROWS - 1);
    }

    fn add_mandate(&mut self, row: usize) {
        let creditor = self.random.between(1, CREDITORS);
        let mut event = self.event(2, self.mandates[row], creditor);
        event[4] = self.random.between(1, 4096);
        event[5] = self.random.between(1, 64);
        event[7] = event[1];
        self.send(event);
    }

    fn add_collection(&mut self, row: usize) {
        let mandate = self.mandates[row % MANDATE_ROWS];
        let code = i64::from(row >= MANDATE_ROWS);
        let event = self.collect(mandate, self.collections[row], code);
        self.send(event);
    }

    fn collect(&mut self, mandate: i64, collection: i64, code: i64) -> Fields {
        let mut event = self.event(5, mandate, collection);
        event[6] = self.random.between(1, 500_000);
        event[7] = self.books.date(self.today + 10);
        event[8] = code;
        event
    }

    fn lookup(&mut self) -> Fields {
        match self.random.below(20) {
            0..=4 => self.amend(self.mandates[MANDATE_ROWS - 1]),
            5..=8 => self.outcome(self.collections[COLLECTION_ROWS - 1], &[6, 6, 8, 9, 10]),
            9..=11 => self.of_absent_mandate(),
            12..=15 => {
                let absent = self.absent_collection();
                self.outcome(absent, &[6, 7, 8, 9, 10])
            }
            _ => self.collect_of_absent(),
        }
    }

    /// A new debtor bank or creditor.
    fn amend(&mut self, mandate: i64) -> Fields {
        let mut event = self.event(3, mandate, 0);
        if self.random.chance(70) {
            event[5] = self.random.between(1, 64);
        } else {
            event[3] = self.random.between(1, CREDITORS);
            event[8] = 1;
        }
        event
    }

    fn outcome(&mut self, collection: i64, kinds: &[i64]) -> Fields {
        let kind = self.random.pick(kinds);
        let mut event = self.event(kind, 0, collection);
        if kind == 9 {
            event[4] = self.random.between(0, 9_999);
            event[8] = self.random.between(0, 1);
        }
        event
    }

    fn of_absent_mandate(&mut self) -> Fields {
        let absent = self.absent_mandate();
        match self.random.chance(30) {
            true => self.event(4, absent, 0),
            false => self.amend(absent),
        }
    }

    /// A new collection of the last mandate, of an absent one at times.
    fn collect_of_absent(&mut self) -> Fields {
        let collection = self.absent_collection();
        let mandate = match self.random.chance(30) {
            true => self.absent_mandate(),
            false => self.mandates[MANDATE_ROWS - 1],
        };
        let code = self.random.between(0, 1);
        self.collect(mandate, collection, code)
    }

    fn absent_mandate(&mut self) -> i64 {
        absent(&self.mandates, &mut self.random)
    }

    fn absent_collection(&mut self) -> i64 {
        absent(&self.collections, &mut self.random)
    }
}

/// The numbers of the rows: those of odd or of even rows are random.
fn numbers(rows: usize, random_rows: usize, random: &mut Random) -> Vec<i64> {
    let mut numbers = Vec::new();
    for row in 0..rows {
        let number = match row % 2 == random_rows {
            true => nine_digits(&numbers, random),
            false => FOLLOWING + row as i64,
        };
        numbers.push(number);
    }
    numbers
}

/// A number of nine digits that is not among these.
fn nine_digits(numbers: &[i64], random: &mut Random) -> i64 {
    loop {
        let number = random.between(100_000_000, 999_999_999);
        if !numbers.contains(&number) {
            return number;
        }
    }
}

/// A number that is not among these: one of nine digits, or one between those
/// that follow each other.
fn absent(numbers: &[i64], random: &mut Random) -> i64 {
    if random.chance(50) {
        return nine_digits(numbers, random);
    }
    loop {
        let number = FOLLOWING + random.below(numbers.len() as u64) as i64;
        if !numbers.contains(&number) {
            return number;
        }
    }
}

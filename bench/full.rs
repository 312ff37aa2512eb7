//! Full tables of the largest size, and the texts given to them.

use crate::kalanhav::{
    Book, ANSWER_BYTES, BANKS, COLLECTION_ROWS, CREDITORS, DEBTORS, MANDATE_ROWS,
};
use crate::ledger::{answer_lines, Ledger};
use crate::random::Random;
use std::collections::HashSet;

pub const MANDATES: usize = MANDATE_ROWS;
pub const COLLECTIONS: usize = COLLECTION_ROWS;
/// Lines of a text.
pub const LINES: usize = 4_096;
/// The cells of a mandate's debtor bank and of its mark that FRST is due, and of a collection's amount.
pub const BANK_CELL: usize = 3;
pub const FIRST_CELL: usize = 7;
pub const AMOUNT_CELL: usize = 5;

/// The last collections are presented and the others settled.
const PRESENTED: usize = 4_096;
const SIGNED: u64 = 20240102;
const COLLECTED: u64 = 20240318;
pub const SETTLED: u64 = 20240325;
pub const TODAY: u64 = 20240402;
/// A requested date for a collect of today.
const REQUESTED: u64 = 20240410;
const AMOUNT: u64 = 10_000;
const SEED: u64 = 1;

pub type Fields = [u64; 9];

/// The numbers of the rows, and collection numbers that are not there.
pub struct Numbers {
    pub mandates: Vec<u64>,
    collections: Vec<u64>,
    absent: Vec<u64>,
}

impl Numbers {
    /// 1, 2, 3 and so on.
    pub fn following() -> Numbers {
        let absent = COLLECTIONS + 1..=COLLECTIONS + LINES;
        Numbers {
            mandates: (1..=MANDATES as u64).collect(),
            collections: (1..=COLLECTIONS as u64).collect(),
            absent: absent.map(|number| number as u64).collect(),
        }
    }

    /// Of nine digits, no two the same.
    pub fn random() -> Numbers {
        let mut random = Random::new(SEED, "numbers");
        let mut seen = HashSet::new();
        let mut fresh = |count| -> Vec<u64> {
            let numbers = std::iter::repeat_with(|| random.between(100_000_000, 999_999_999));
            let fresh = numbers.filter(|&number| seen.insert(number));
            fresh.map(|number| number as u64).take(count).collect()
        };
        Numbers {
            mandates: fresh(MANDATES),
            collections: fresh(COLLECTIONS),
            absent: fresh(LINES),
        }
    }
}

/// The tables lent to the proved library, and the twin's ledger, filled alike.
#[derive(Clone)]
pub struct Full {
    pub book: Book,
    pub ledger: Ledger,
}

impl Full {
    /// Every row used and every creditor added, by events.
    pub fn new(numbers: &Numbers) -> Full {
        let mut full = Full {
            book: Book::new(MANDATES, COLLECTIONS).unwrap(),
            ledger: Ledger::new(MANDATES, COLLECTIONS),
        };
        let events = filling(numbers);
        let mut text = lines(&events);
        let mut output = vec![0; text.len() * ANSWER_BYTES];
        answer_lines(&mut full.ledger, &text[..], &mut &mut output[..]).unwrap();
        check_answers(&output, events.len(), 0);
        let added = text.len();
        assert_eq!(full.book.take_text(&mut text, added, &mut output), 0);
        check_answers(&output, events.len(), 0);
        full.book.state[3..].fill(0);
        full
    }
}

/// The party or bank of a row, of so many.
fn turn(row: usize, count: usize) -> u64 {
    (row * 7 % count) as u64 + 1
}

fn filling(numbers: &Numbers) -> Vec<Fields> {
    let creditors =
        (0..CREDITORS).map(|row| [1, SIGNED, 0, row as u64 + 1, turn(row, BANKS), 0, 0, 0, 0]);
    let mandates = numbers.mandates.iter().enumerate().map(|(row, &number)| {
        let (creditor, debtor) = (turn(row, CREDITORS), turn(row, DEBTORS));
        let bank = turn(row + 1, BANKS);
        [2, SIGNED, number, creditor, debtor, bank, 0, SIGNED, 0]
    });
    let collects = numbers
        .collections
        .iter()
        .enumerate()
        .map(|(row, &number)| {
            let mandate = numbers.mandates[row % MANDATES];
            let code = u64::from(row >= MANDATES);
            [5, COLLECTED, mandate, number, 0, 0, AMOUNT, SETTLED, code]
        });
    let settled = &numbers.collections[..COLLECTIONS - PRESENTED];
    let settles = settled.iter().map(|&number| settle(SETTLED, number));
    let all = creditors.chain(mandates).chain(collects).chain(settles);
    all.collect()
}

fn settle(date: u64, number: u64) -> Fields {
    [6, date, 0, number, 0, 0, 0, 0, 0]
}

pub fn lines(events: &[Fields]) -> Vec<u8> {
    let line = |event: &Fields| {
        let [kind, date, mandate, a, b, c, amount, second, code] = event;
        format!("{kind:2}{date:9}{mandate:10}{a:10}{b:10}{c:10}{amount:12}{second:9}{code:2}\n")
    };
    events.iter().map(line).collect::<String>().into_bytes()
}

/// Each line has its number and the expected answer.
pub fn check_answers(output: &[u8], count: usize, answer: u64) {
    for (k, line) in output.chunks(ANSWER_BYTES).take(count).enumerate() {
        assert_eq!(line, format!("{:6}{answer:3}\n", k + 1).as_bytes());
    }
}

/// Events that all get the same answer.
pub struct Text {
    pub name: &'static str,
    pub events: Vec<Fields>,
    pub answer: u64,
}

impl Text {
    fn new(name: &'static str, answer: u64, event: impl Fn(usize) -> Fields) -> Text {
        let events = (0..LINES).map(event).collect();
        Text {
            name,
            events,
            answer,
        }
    }
}

pub fn texts(numbers: &Numbers) -> Vec<Text> {
    let mandate = |row: usize| numbers.mandates[row];
    let amend = |row: usize, k: usize| [3, TODAY, mandate(row), 0, 0, turn(k, BANKS), 0, 0, 0];
    let (mandates, collections) = (spread(MANDATES), spread(COLLECTIONS));
    vec![
        Text::new("bank of the first mandate, accepted", 0, |k| amend(0, k)),
        Text::new("bank of the last mandate, accepted", 0, |k| {
            amend(MANDATES - 1, k)
        }),
        Text::new("bank of mandates of all rows, accepted", 0, |k| {
            amend(mandates[k], k)
        }),
        Text::new("settle from the last collection on, accepted", 0, |k| {
            settle(TODAY, numbers.collections[COLLECTIONS - 1 - k])
        }),
        Text::new("settle or return of all rows, accepted", 0, |k| {
            outcome(numbers, collections[k])
        }),
        Text::new("settle of a collection not there, refusal 9", 9, |k| {
            settle(TODAY, numbers.absent[k])
        }),
        Text::new("collect of the last mandate, refusal 10", 10, |k| {
            let (mandate, number) = (mandate(MANDATES - 1), numbers.absent[k]);
            [5, TODAY, mandate, number, 0, 0, AMOUNT, REQUESTED, 1]
        }),
    ]
}

/// A settle of a presented collection, or a return of a settled one.
fn outcome(numbers: &Numbers, row: usize) -> Fields {
    let kind = if row < COLLECTIONS - PRESENTED { 8 } else { 6 };
    [kind, TODAY, 0, numbers.collections[row], 0, 0, 0, 0, 0]
}

/// All rows of a table in a random order.
fn spread(rows: usize) -> Vec<usize> {
    let mut random = Random::new(SEED, "rows");
    let mut order: Vec<usize> = (0..rows).collect();
    for place in (1..rows).rev() {
        order.swap(place, random.below(place as u64 + 1) as usize);
    }
    order
}

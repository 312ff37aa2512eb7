//! Times the proved library on full tables of the largest size, and the twin on
//! the same tables with its rows walked from the first: bench/tables. With the
//! word `check` it does the checks alone.

#[path = "../twin/src/calendar.rs"]
mod calendar;
mod clock;
mod full;
#[path = "../include/kalanhav.rs"]
mod kalanhav;
#[allow(dead_code)]
#[path = "../twin/src/ledger.rs"]
mod ledger;
#[allow(dead_code)]
#[path = "../twin/src/random.rs"]
mod random;
#[path = "walk.rs"]
mod rows;

use clock::timed;
use full::{check_answers, lines, texts, Full, Numbers, Text};
use full::{AMOUNT_CELL, BANK_CELL, COLLECTIONS, FIRST_CELL, LINES, MANDATES, SETTLED, TODAY};
use kalanhav::{
    Book, ANSWER_BYTES, BANKS, COLLECTION_ROWS, CREDITORS, DEBTORS, LAST_LINE, LISTING_ROOM,
    MANDATE_ROWS, ROW_CELLS, WRITTEN,
};
use ledger::{answer_lines, Ledger};
use std::hint::black_box;
use std::time::Duration;

const RUNS: usize = 21;
const TEST_RUNS: usize = 1_001;

fn micros(time: Duration) -> f64 {
    time.as_secs_f64() * 1e6
}

fn median(mut times: Vec<Duration>) -> Duration {
    times.sort();
    times[times.len() / 2]
}

/// The answers to the tests of full tables and of spoilt ones.
fn check_tests(full: &Book) {
    assert!(full.is_fit() && full.is_safe());
    let mut far = full.clone();
    far.debtor_positions[DEBTORS - 1] = 9_000_000_000_000_000;
    assert!(far.is_fit() && !far.is_safe());
    let mut unfit = full.clone();
    unfit.collections[(COLLECTIONS - 1) * ROW_CELLS + AMOUNT_CELL] = 0;
    assert!(!unfit.is_fit() && !unfit.is_safe());
    let mut early = full.clone();
    early.state[0] = SETTLED - 1;
    assert!(!early.is_fit() && !early.is_safe());
    let mut short = full.clone();
    short.bank_positions.pop();
    assert!(!short.is_fit() && !short.is_safe());
}

/// Rows outside their limits are refused, however many.
fn check_rows() {
    let outside = [
        (0, 1),
        (1, 0),
        (MANDATE_ROWS + 1, 1),
        (1, COLLECTION_ROWS + 1),
        (usize::MAX, 1),
        (1, usize::MAX),
    ];
    for (mandates, collections) in outside {
        assert_eq!(Book::new(mandates, collections).err(), Some(2));
    }
    assert!(Book::new(1, 1).is_ok() && Book::new(MANDATE_ROWS, COLLECTION_ROWS).is_ok());
}

/// Cells of another count are refused by every call, and a buffer that is too short for the text; nothing changes.
fn check_refusals(full: &Book, text: &Text) {
    let event = text.events[0];
    let mut text = lines(&text.events);
    let mut out = vec![7; text.len() * ANSWER_BYTES - 1];
    let spoils: [fn(&mut Book); 3] = [|book| book.state.push(0), |book| book.cents.clear(), |_| ()];
    for (spoil, calls_refused) in spoils.into_iter().zip([true, true, false]) {
        let mut book = full.clone();
        spoil(&mut book);
        let before = (book.clone(), text.clone());
        let added = text.len();
        assert_eq!(book.take_text(&mut text, added, &mut out), 2);
        if calls_refused {
            let figure = book.position(4, 0).unwrap_err();
            let calls = [
                book.open(),
                book.take_event(&event),
                book.replay(&event),
                figure,
                book.list_positions(&mut out),
            ];
            assert_eq!(calls, [2; 5]);
        }
        assert!((book, text.clone()) == before && out.iter().all(|&byte| byte == 7));
    }
}

/// Of three lines the last one that may be answered is; how many were not taken is said, and at the end that the bytes
/// behind them were not.
fn check_past(full: &Book, text: &Text) {
    let mut book = full.clone();
    book.state[kalanhav::LINES] = LAST_LINE - 1;
    let mut text = lines(&text.events[..3]);
    text.extend(b" 6");
    let mut out = vec![0; text.len() * ANSWER_BYTES];
    let added = text.len();
    assert_eq!(book.take_text(&mut text, added, &mut out), 0);
    assert_eq!(book.state[3..], [LAST_LINE, 2, ANSWER_BYTES as u64, 2]);
    assert_eq!(book.end_text(&mut out), 0);
    assert_eq!(book.state[3..], [LAST_LINE, 0, 0, 1]);
}

/// The median time of a test of full tables.
fn time_test(name: &str, test: fn(&Book) -> bool, book: &Book) -> Duration {
    let time = |_| {
        let (answer, time) = timed(|| test(black_box(book)));
        assert!(answer);
        time
    };
    let median = median((0..TEST_RUNS).map(time).collect());
    println!("{name:<46}{:9.1} us", micros(median));
    median
}

/// The time the library takes for a text.
fn time_library(book: &mut Book, given: &[u8], text: &mut [u8], out: &mut [u8]) -> Duration {
    text.copy_from_slice(given);
    out.fill(0);
    let (taken, time) = timed(|| book.take_text(text, given.len(), out));
    assert_eq!(taken, 0);
    time
}

/// The time the twin takes for a text.
fn time_walk(ledger: &mut Ledger, given: &[u8], mut out: &mut [u8]) -> Duration {
    out.fill(0);
    let (answered, time) = timed(|| answer_lines(ledger, given, &mut out));
    answered.unwrap();
    time
}

/// The median times of the library and the walk, in alternating runs; what is
/// readied before a run is not timed.
fn time_both(full: &Full, numbers: &Numbers, text: &Text) -> [Duration; 2] {
    let given = lines(&text.events);
    let mut copy = given.clone();
    let mut output = [
        vec![0; given.len() * ANSWER_BYTES],
        vec![0; LINES * ANSWER_BYTES],
    ];
    let mut times = [Vec::new(), Vec::new()];
    let mut used = full.clone();
    for _ in 0..RUNS {
        used.book.clone_from(&full.book);
        times[0].push(time_library(
            &mut used.book,
            &given,
            &mut copy,
            &mut output[0],
        ));
        used.ledger.clone_from(&full.ledger);
        times[1].push(time_walk(&mut used.ledger, &given, &mut output[1]));
        for output in &output {
            check_answers(output, LINES, text.answer);
        }
    }
    check_left(full, &used, numbers, text);
    times.map(median)
}

/// What the last run of a text left: every cell, where the lines are refused or
/// amend mandates.
fn check_left(full: &Full, used: &Full, numbers: &Numbers, text: &Text) {
    let mut left = full.book.clone();
    left.state[3..].copy_from_slice(&[LINES as u64, 0, (LINES * ANSWER_BYTES) as u64, 0]);
    if text.answer == 0 {
        left.state[0] = TODAY;
    }
    for [kind, _, mandate, _, _, bank, ..] in &text.events {
        if *kind == 3 {
            let row = numbers.mandates.iter().position(|number| number == mandate);
            let cells = row.unwrap() * ROW_CELLS;
            left.mandates[cells + BANK_CELL] = *bank;
            // A new bank makes FRST due.
            left.mandates[cells + FIRST_CELL] = 1;
        }
    }
    let moved = text.answer == 0 && text.events[0][0] != 3;
    assert!(used.book.state == left.state && used.book.is_safe());
    assert!(used.book == left || moved);
    let mut listing = Vec::new();
    used.ledger.write_positions(&mut listing).unwrap();
    assert!(positions(used.book.clone()) == listing);
}

/// The library's listing of the positions.
fn positions(mut book: Book) -> Vec<u8> {
    let mut out = vec![0; LISTING_ROOM];
    assert_eq!(book.list_positions(&mut out), 0);
    out.truncate(book.state[WRITTEN] as usize);
    out
}

/// Prints the row of a text.
fn measure(full: &Full, numbers: &Numbers, text: &Text, safe: Duration) {
    let [library, walk] = time_both(full, numbers, text);
    let line = |time: Duration| micros(time) / LINES as f64;
    let ratio = walk.as_secs_f64() / library.as_secs_f64();
    println!(
        "{:<46}{:9.1} us{:9.3} us{:9.3} us{:9.3} us{ratio:8.2}",
        text.name,
        micros(library),
        line(library),
        line(library.saturating_sub(safe)),
        line(walk),
    );
}

/// Tables with these numbers and the texts for them, all checks done.
fn checked(numbers: &Numbers) -> (Full, Vec<Text>) {
    let full = Full::new(numbers);
    let texts: Vec<Text> = texts(numbers).into_iter().collect();
    check_rows();
    check_tests(&full.book);
    check_refusals(&full.book, &texts[0]);
    check_past(&full.book, &texts[0]);
    (full, texts)
}

/// Prints the rows of tables with these numbers.
fn measure_all(title: &str, numbers: &Numbers) {
    let (full, texts) = checked(numbers);
    println!("\n{title}");
    time_test("fitness test", Book::is_fit, &full.book);
    let safe = time_test("safety test", Book::is_safe, &full.book);
    println!(
        "{:<46}{:>12}{:>12}{:>12}{:>12}{:>8}",
        format!("a text of {LINES} lines"),
        "whole",
        "a line",
        "no test",
        "the walk",
        "ratio",
    );
    for text in &texts {
        measure(&full, numbers, text, safe);
    }
}

fn main() {
    if std::env::args().nth(1).as_deref() == Some("check") {
        checked(&Numbers::following());
        checked(&Numbers::random());
        println!("library: full tables, refusals and lines past the last as they have to be");
        return;
    }
    println!(
        "{MANDATES} mandate rows and {COLLECTIONS} collection rows, all used;
{CREDITORS} creditors, all added, {DEBTORS} debtors, {BANKS} banks.
The tables were filled before the clock starts and are warm; what a text has changed is put
back before it is given again, untimed. Processor time, the median of {TEST_RUNS} tests, and of {RUNS}
texts given to the library and to the twin's walk in turn.
'a line' has its share of the one safety test of the text; 'no test' is without it; 'the walk'
is a line of the twin, its rows walked from the first; the ratio is 'the walk' over 'a line'."
    );
    measure_all("Numbers that follow each other", &Numbers::following());
    measure_all("Random numbers of nine digits", &Numbers::random());
}

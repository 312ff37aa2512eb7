//! The library from Rust. The events of standard input are given to a ledger as a text, to another one by one, and to a third as a
//! list; what comes of them is compared, and printed as the program `ledger` prints it. Lines have to be laid out as events.

#[path = "../include/kalanhav.rs"]
mod kalanhav;

use kalanhav::{
    Book, ANSWER_BYTES, BANKS, CREDITORS, DEBTORS, EVENT_CELLS, FILLED, LISTING_ROOM, PAST, WRITTEN,
};
use std::io::{self, Read, Write};

/// `TEXT_LEAST` or more.
const TEXT: usize = 256;

fn start() -> Book {
    Book::new(128, 256).expect("the ledger is opened")
}

/// What a call wrote to a buffer.
fn written(book: &Book, out: &[u8]) -> Vec<u8> {
    out[..book.state[WRITTEN] as usize].to_vec()
}

fn list(book: &mut Book) -> Vec<u8> {
    let mut out = vec![0; LISTING_ROOM];
    assert_eq!(book.list_positions(&mut out), 0);
    written(book, &out)
}

/// As a text, in pieces: a partial line stays at the front.
fn by_text(input: &[u8]) -> Vec<u8> {
    let mut book = start();
    let mut text = [0; TEXT];
    let mut out = [0; TEXT * ANSWER_BYTES];
    let mut output = Vec::new();
    let mut left = input;
    while !left.is_empty() {
        let filled = book.state[FILLED] as usize;
        let (piece, rest) = left.split_at(left.len().min(TEXT - filled));
        text[filled..filled + piece.len()].copy_from_slice(piece);
        assert_eq!(book.take_text(&mut text, piece.len(), &mut out), 0);
        assert_eq!(book.state[PAST], 0, "a line was not taken");
        output.extend(written(&book, &out));
        left = rest;
    }
    assert_eq!(book.end_text(&mut out), 0);
    output.extend(written(&book, &out));
    output.extend(list(&mut book));
    output
}

/// One by one, and then a query for each position.
fn by_event(events: &[Vec<u64>]) -> Vec<u8> {
    let mut book = start();
    let mut output = String::new();
    for (number, event) in (1..).zip(events) {
        output += &format!("{number:6}{:3}\n", book.take_event(event));
    }
    assert!(book.is_fit() && book.is_safe());
    for (kind, count) in [(1, CREDITORS), (2, DEBTORS), (3, BANKS)] {
        for number in 1..=count as u64 {
            let cents = book.position(kind, number).expect("a figure");
            if cents != 0 {
                output += &format!("{kind:2}{number:6}{cents:18}\n");
            }
        }
    }
    let total = book.position(4, 0).expect("a figure");
    output += &format!(" 4     0{total:18}\n");
    output.into_bytes()
}

/// As a list: the positions alone.
fn by_list(events: &[Vec<u64>]) -> Vec<u8> {
    let mut book = start();
    assert_eq!(book.replay(&events.concat()), 0);
    list(&mut book)
}

/// The nine fields of each line.
fn read_events(input: &str) -> Vec<Vec<u64>> {
    let fields = |line: &str| {
        line.split_whitespace()
            .map(|field| field.parse().expect("a number"))
            .collect()
    };
    let events: Vec<Vec<u64>> = input.lines().map(fields).collect();
    assert!(events.iter().all(|event| event.len() == EVENT_CELLS));
    events
}

fn main() {
    let mut input = String::new();
    io::stdin().read_to_string(&mut input).expect("a text");
    let events = read_events(&input);
    let output = by_text(input.as_bytes());
    assert!(output == by_event(&events), "text and events differ");
    assert!(
        output[events.len() * ANSWER_BYTES..] == by_list(&events),
        "text and list differ"
    );
    io::stdout().write_all(&output).expect("written");
}

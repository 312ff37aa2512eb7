//! The program `ledger` of document 01, written a second time from the papers
//! alone, to be compared with the proved one.

mod calendar;
mod ledger;
mod rows;
#[cfg(test)]
mod tests;

use ledger::{answer_lines, Ledger};
use std::io::{self, BufRead, BufReader, BufWriter, Write};

const MANDATE_ROWS: usize = 128;
const COLLECTION_ROWS: usize = 256;
const BUFFER: usize = 1 << 16;

fn main() {
    let input = BufReader::with_capacity(BUFFER, io::stdin().lock());
    let output = BufWriter::with_capacity(BUFFER, io::stdout().lock());
    // The program says nothing of a reader that closes its end.
    let _ = run(input, output);
}

/// Answers at most 999,999 lines, then writes the positions.
fn run(input: impl BufRead, mut output: impl Write) -> io::Result<()> {
    let mut ledger = Ledger::new(MANDATE_ROWS, COLLECTION_ROWS);
    answer_lines(&mut ledger, input, &mut output)?;
    ledger.write_positions(&mut output)?;
    output.flush()
}

//! The text line, the events and their rules, from document 01 and requests (b)
//! and (e) of document 02.

use crate::calendar::{day_in_range, day_number, lapse_limit, Calendar, Day, Days};
use crate::rows::Table;
use std::io::{self, BufRead, ErrorKind, Write};

const CREDITORS: i64 = 256;
const DEBTORS: i64 = 4096;
const BANKS: i64 = 64;
const LARGEST_NUMBER: i64 = 999_999_999;
const LARGEST_AMOUNT: i64 = 99_999_999_999;
const LARGEST_RATE: i64 = 9_999;

/// A cent in amount times rate times days: 360 days, 10,000 parts of the rate.
const CENT: i64 = 3_600_000;
const HALF_CENT: i64 = CENT / 2;
/// In refunds of this day or later an exact half cent goes to the even cent.
const HALVES_TO_EVEN_FROM: Day = day_number(2026, 1, 1);

const MOST_LINES: u32 = 999_999;
const COLUMNS: usize = 74;

// The refusal numbers of document 01; 2 cannot occur in the program.
const NOT_A_LINE: u8 = 1;
const UNKNOWN_KIND: u8 = 3;
const BAD_EVENT_DATE: u8 = 4;
const OUTSIDE_LIMITS: u8 = 5;
const BEFORE_LATEST: u8 = 6;
const CLOSED_DAY: u8 = 7;
const EXISTS: u8 = 8;
const MISSING: u8 = 9;
const NO_ROW: u8 = 10;
const MANDATE_ENDED: u8 = 11;
const WRONG_SEQUENCE: u8 = 12;
const WRONG_LEAD: u8 = 13;
const LAPSED: u8 = 14;
const WRONG_STATE: u8 = 15;
const BEFORE_DUE: u8 = 16;
const AFTER_LAST_DAY: u8 = 17;

/// Accepted, with the days that the kept due of a collect slid, 0 for any other
/// event; or the refusal number.
pub type Answer = Result<Days, u8>;

/// Nothing against it, or the refusal number.
type Check = Result<(), u8>;

/// Refuses with the number unless the condition holds.
fn require(condition: bool, refusal: u8) -> Check {
    if condition {
        Ok(())
    } else {
        Err(refusal)
    }
}

// ---- The text line ----

/// The nine numbers of a line: kind, date, mandate, a, b, c, amount, second
/// date, code.
type Fields = [i64; 9];

/// The fields of a line without its byte 10.
fn read_line(line: &[u8]) -> Option<Fields> {
    let line: &[u8; COLUMNS] = line.try_into().ok()?;
    Some([
        read_field(&line[0..2])?,
        read_field(&line[2..11])?,
        read_field(&line[11..21])?,
        read_field(&line[21..31])?,
        read_field(&line[31..41])?,
        read_field(&line[41..51])?,
        read_field(&line[51..63])?,
        read_field(&line[63..72])?,
        read_field(&line[72..74])?,
    ])
}

/// A number at the right edge of its columns, with blanks alone before it; 0 is
/// the one number that begins with a zero.
fn read_field(columns: &[u8]) -> Option<i64> {
    let blanks = columns.iter().take_while(|&&byte| byte == b' ').count();
    let digits = &columns[blanks..];
    if digits.is_empty() || (digits[0] == b'0' && digits.len() > 1) {
        return None;
    }
    let mut value = 0;
    for byte in digits {
        if !byte.is_ascii_digit() {
            return None;
        }
        value = value * 10 + i64::from(byte - b'0');
    }
    Some(value)
}

// ---- Events ----

enum Event {
    Creditor {
        creditor: usize,
        bank: usize,
    },
    Mandate {
        mandate: u32,
        creditor: usize,
        debtor: usize,
        debtor_bank: usize,
        signing: Day,
        one_off: bool,
    },
    AmendBank {
        mandate: u32,
        debtor_bank: usize,
    },
    AmendCreditor {
        mandate: u32,
        creditor: usize,
    },
    Cancel {
        mandate: u32,
    },
    Collect(Collect),
    Settle {
        collection: u32,
    },
    Reject {
        collection: u32,
    },
    Undo {
        collection: u32,
        undoing: Undoing,
    },
}

struct Collect {
    mandate: u32,
    collection: u32,
    amount: i64,
    requested: Day,
    sequence: Sequence,
}

#[derive(Clone, Copy, PartialEq)]
enum Sequence {
    Frst,
    Rcur,
    Fnal,
    Ooff,
}

#[derive(Clone, Copy)]
enum Undoing {
    Return,
    Reversal,
    Refund { rate: i64, unauthorised: bool },
}

/// Refusals 3, 4 and 5: the event date and the event, each field within its
/// limits and every unnamed one 0.
fn read_event(fields: &Fields) -> Result<(Day, Event), u8> {
    let [kind, date, ..] = *fields;
    require((1..=10).contains(&kind), UNKNOWN_KIND)?;
    let day = day_in_range(date).ok_or(BAD_EVENT_DATE)?;
    Ok((day, within_limits(day, fields)?))
}

fn within_limits(day: Day, fields: &Fields) -> Result<Event, u8> {
    let [kind, _, mandate, a, b, c, amount, second, code] = *fields;
    match kind {
        1 => {
            unnamed([mandate, c, amount, second, code])?;
            Ok(Event::Creditor {
                creditor: party(a, CREDITORS)?,
                bank: party(b, BANKS)?,
            })
        }
        2 => {
            unnamed([amount])?;
            let signing = second_date(second)?;
            require(signing <= day, OUTSIDE_LIMITS)?;
            Ok(Event::Mandate {
                mandate: number(mandate)?,
                creditor: party(a, CREDITORS)?,
                debtor: party(b, DEBTORS)?,
                debtor_bank: party(c, BANKS)?,
                signing,
                one_off: flag(code)?,
            })
        }
        3 => {
            unnamed([b, amount, second])?;
            let mandate = number(mandate)?;
            if flag(code)? {
                unnamed([c])?;
                let creditor = party(a, CREDITORS)?;
                Ok(Event::AmendCreditor { mandate, creditor })
            } else {
                unnamed([a])?;
                let debtor_bank = party(c, BANKS)?;
                Ok(Event::AmendBank {
                    mandate,
                    debtor_bank,
                })
            }
        }
        4 => {
            unnamed([a, b, c, amount, second, code])?;
            Ok(Event::Cancel {
                mandate: number(mandate)?,
            })
        }
        5 => {
            unnamed([b, c])?;
            Ok(Event::Collect(Collect {
                mandate: number(mandate)?,
                collection: number(a)?,
                amount: limited(amount, 1, LARGEST_AMOUNT)?,
                requested: second_date(second)?,
                sequence: sequence(code)?,
            }))
        }
        9 => {
            unnamed([mandate, c, amount, second])?;
            Ok(Event::Undo {
                collection: number(a)?,
                undoing: Undoing::Refund {
                    rate: limited(b, 0, LARGEST_RATE)?,
                    unauthorised: flag(code)?,
                },
            })
        }
        _ => {
            unnamed([mandate, b, c, amount, second, code])?;
            let collection = number(a)?;
            Ok(match kind {
                6 => Event::Settle { collection },
                7 => Event::Reject { collection },
                8 => Event::Undo {
                    collection,
                    undoing: Undoing::Return,
                },
                _ => Event::Undo {
                    collection,
                    undoing: Undoing::Reversal,
                },
            })
        }
    }
}

fn unnamed<const N: usize>(fields: [i64; N]) -> Check {
    require(fields.iter().all(|&field| field == 0), OUTSIDE_LIMITS)
}

fn limited(field: i64, least: i64, most: i64) -> Result<i64, u8> {
    require((least..=most).contains(&field), OUTSIDE_LIMITS)?;
    Ok(field)
}

/// A creditor, debtor or bank.
fn party(field: i64, most: i64) -> Result<usize, u8> {
    Ok(limited(field, 1, most)? as usize)
}

/// A mandate or collection number.
fn number(field: i64) -> Result<u32, u8> {
    Ok(limited(field, 1, LARGEST_NUMBER)? as u32)
}

fn second_date(field: i64) -> Result<Day, u8> {
    day_in_range(field).ok_or(OUTSIDE_LIMITS)
}

fn flag(code: i64) -> Result<bool, u8> {
    Ok(limited(code, 0, 1)? == 1)
}

fn sequence(code: i64) -> Result<Sequence, u8> {
    match code {
        0 => Ok(Sequence::Frst),
        1 => Ok(Sequence::Rcur),
        2 => Ok(Sequence::Fnal),
        3 => Ok(Sequence::Ooff),
        _ => Err(OUTSIDE_LIMITS),
    }
}

// ---- Records ----

#[derive(Clone, Copy)]
struct Mandate {
    creditor: usize,
    debtor: usize,
    debtor_bank: usize,
    signing: Day,
    one_off: bool,
    /// Neither closed nor cancelled.
    live: bool,
    first_due: bool,
    last_presented: Option<Day>,
}

#[derive(Clone)]
struct Collection {
    creditor: usize,
    debtor: usize,
    creditor_bank: usize,
    debtor_bank: usize,
    amount: i64,
    kept_due: Day,
    state: State,
}

#[derive(Clone, Copy, PartialEq)]
enum State {
    Presented,
    Rejected,
    Settled(Day),
    Undone,
}

// ---- The ledger ----

#[derive(Clone)]
pub struct Ledger {
    calendar: Calendar,
    /// The day of the last accepted event.
    latest: Option<Day>,
    /// The bank of each creditor added.
    creditor_banks: Vec<Option<usize>>,
    mandates: Table<Mandate>,
    collections: Table<Collection>,
    creditors: Vec<i64>,
    debtors: Vec<i64>,
    banks: Vec<i64>,
    compensation: i64,
}

impl Ledger {
    pub fn new(mandate_rows: usize, collection_rows: usize) -> Ledger {
        Ledger {
            calendar: Calendar::new(),
            latest: None,
            creditor_banks: vec![None; CREDITORS as usize + 1],
            mandates: Table::new(mandate_rows),
            collections: Table::new(collection_rows),
            creditors: vec![0; CREDITORS as usize + 1],
            debtors: vec![0; DEBTORS as usize + 1],
            banks: vec![0; BANKS as usize + 1],
            compensation: 0,
        }
    }

    /// The answer to a line without its byte 10.
    pub fn take_line(&mut self, line: &[u8]) -> Answer {
        let fields = read_line(line).ok_or(NOT_A_LINE)?;
        let (day, event) = read_event(&fields)?;
        require(self.latest <= Some(day), BEFORE_LATEST)?;
        let days_slid = self.take_event(day, event)?;
        self.latest = Some(day);
        Ok(days_slid)
    }

    fn take_event(&mut self, day: Day, event: Event) -> Answer {
        match event {
            Event::Creditor { creditor, bank } => self.add_creditor(creditor, bank)?,
            Event::Mandate {
                mandate,
                creditor,
                debtor,
                debtor_bank,
                signing,
                one_off,
            } => {
                let row = Mandate {
                    creditor,
                    debtor,
                    debtor_bank,
                    signing,
                    one_off,
                    live: true,
                    first_due: !one_off,
                    last_presented: None,
                };
                self.add_mandate(mandate, row)?;
            }
            Event::AmendBank {
                mandate,
                debtor_bank,
            } => {
                let mandate = self.live_mandate(mandate)?;
                mandate.debtor_bank = debtor_bank;
                mandate.first_due = !mandate.one_off;
            }
            Event::AmendCreditor { mandate, creditor } => {
                require(self.creditor_banks[creditor].is_some(), MISSING)?;
                self.live_mandate(mandate)?.creditor = creditor;
            }
            Event::Cancel { mandate } => {
                self.live_mandate(mandate)?.live = false;
            }
            Event::Collect(collect) => return self.collect(day, &collect),
            Event::Settle { collection } => self.settle(day, collection)?,
            Event::Reject { collection } => {
                let collection = self.collections.get(collection).ok_or(MISSING)?;
                require(collection.state == State::Presented, WRONG_STATE)?;
                collection.state = State::Rejected;
            }
            Event::Undo {
                collection,
                undoing,
            } => self.undo(day, collection, undoing)?,
        }
        Ok(0)
    }

    fn add_creditor(&mut self, creditor: usize, bank: usize) -> Check {
        let place = &mut self.creditor_banks[creditor];
        require(place.is_none(), EXISTS)?;
        *place = Some(bank);
        Ok(())
    }

    fn add_mandate(&mut self, mandate: u32, row: Mandate) -> Check {
        require(!self.mandates.has(mandate), EXISTS)?;
        require(self.creditor_banks[row.creditor].is_some(), MISSING)?;
        require(!self.mandates.is_full(), NO_ROW)?;
        self.mandates.add(mandate, row);
        Ok(())
    }

    fn live_mandate(&mut self, mandate: u32) -> Result<&mut Mandate, u8> {
        let mandate = self.mandates.get(mandate).ok_or(MISSING)?;
        require(mandate.live, MANDATE_ENDED)?;
        Ok(mandate)
    }

    fn collect(&mut self, day: Day, collect: &Collect) -> Answer {
        require(!self.collections.has(collect.collection), EXISTS)?;
        require(self.mandates.has(collect.mandate), MISSING)?;
        require(!self.collections.is_full(), NO_ROW)?;
        let mandate = *self.live_mandate(collect.mandate)?;
        require(takes(&mandate, collect.sequence), WRONG_SEQUENCE)?;

        let (kept_due, days_slid) = self.calendar.kept_due(collect.requested);
        let latest_event = self.calendar.business_day_before(kept_due);
        let lead_allowed = collect.requested - day <= 14 && day <= latest_event;
        require(lead_allowed, WRONG_LEAD)?;
        let counted_from = mandate.last_presented.unwrap_or(mandate.signing);
        require(kept_due <= lapse_limit(counted_from), LAPSED)?;

        let creditor_bank = self.creditor_banks[mandate.creditor].ok_or(MISSING)?;
        let row = Collection {
            creditor: mandate.creditor,
            debtor: mandate.debtor,
            creditor_bank,
            debtor_bank: mandate.debtor_bank,
            amount: collect.amount,
            kept_due,
            state: State::Presented,
        };
        self.collections.add(collect.collection, row);

        let mandate = self.live_mandate(collect.mandate)?;
        mandate.last_presented = Some(kept_due);
        match collect.sequence {
            Sequence::Frst => mandate.first_due = false,
            Sequence::Rcur => {}
            Sequence::Fnal | Sequence::Ooff => mandate.live = false,
        }
        Ok(days_slid)
    }

    fn settle(&mut self, day: Day, collection: u32) -> Check {
        require(self.calendar.is_business_day(day), CLOSED_DAY)?;
        let collection = self.collections.get(collection).ok_or(MISSING)?;
        require(collection.state == State::Presented, WRONG_STATE)?;
        require(day >= collection.kept_due, BEFORE_DUE)?;

        collection.state = State::Settled(day);
        let amount = collection.amount;
        self.debtors[collection.debtor] -= amount;
        self.creditors[collection.creditor] += amount;
        self.banks[collection.debtor_bank] -= amount;
        self.banks[collection.creditor_bank] += amount;
        Ok(())
    }

    fn undo(&mut self, day: Day, collection: u32, undoing: Undoing) -> Check {
        require(self.calendar.is_business_day(day), CLOSED_DAY)?;
        let collection = self.collections.get(collection).ok_or(MISSING)?;
        let State::Settled(settled) = collection.state else {
            return Err(WRONG_STATE);
        };
        let last_day = last_day(&self.calendar, settled, undoing);
        require(day <= last_day, AFTER_LAST_DAY)?;

        collection.state = State::Undone;
        let amount = collection.amount;
        let compensation = match undoing {
            Undoing::Refund { rate, .. } => compensation(amount, rate, settled, day),
            Undoing::Return | Undoing::Reversal => 0,
        };
        self.debtors[collection.debtor] += amount;
        self.creditors[collection.creditor] -= amount + compensation;
        self.banks[collection.debtor_bank] += amount + compensation;
        self.banks[collection.creditor_bank] -= amount + compensation;
        self.compensation += compensation;
        Ok(())
    }

    /// Each non-zero position, then total compensation.
    pub fn write_positions(&self, output: &mut impl Write) -> io::Result<()> {
        let kinds = [&self.creditors, &self.debtors, &self.banks];
        for (kind, positions) in (1..).zip(kinds) {
            for (number, cents) in positions.iter().enumerate() {
                if *cents != 0 {
                    writeln!(output, "{kind:2}{number:6}{cents:18}")?;
                }
            }
        }
        writeln!(output, " 4     0{:18}", self.compensation)
    }
}

/// Whether the mandate may be collected on by this code: OOFF is for one-offs,
/// FRST for recurrent ones while it is due, RCUR and FNAL once it is not.
fn takes(mandate: &Mandate, sequence: Sequence) -> bool {
    match sequence {
        Sequence::Ooff => mandate.one_off,
        Sequence::Frst => mandate.first_due,
        Sequence::Rcur | Sequence::Fnal => !mandate.one_off && !mandate.first_due,
    }
}

fn last_day(calendar: &Calendar, settled: Day, undoing: Undoing) -> Day {
    match undoing {
        Undoing::Return | Undoing::Reversal => calendar.last_return(settled),
        Undoing::Refund { unauthorised, .. } => {
            if unauthorised {
                calendar.last_unauthorised_refund(settled)
            } else {
                calendar.last_authorised_refund(settled)
            }
        }
    }
}

/// Amount times rate times the days from the settled day to the refund, in cents
/// by the rule of the refund's date. The longest time, 13 months and some weeks,
/// keeps the product below 10^18.
pub fn compensation(amount: i64, rate: i64, settled: Day, refunded: Day) -> i64 {
    let product = amount * rate * i64::from(refunded - settled);
    if refunded < HALVES_TO_EVEN_FROM {
        half_up(product)
    } else {
        half_to_even(product)
    }
}

/// The nearest cent, the upper one at an exact half.
fn half_up(product: i64) -> i64 {
    (product + HALF_CENT) / CENT
}

/// The nearest cent, the even one at an exact half.
fn half_to_even(product: i64) -> i64 {
    let upper = half_up(product);
    if product % CENT == HALF_CENT && upper % 2 == 1 {
        upper - 1
    } else {
        upper
    }
}

// ---- A text of lines ----

/// Answers at most 999,999 lines.
pub fn answer_lines<Output: Write>(
    ledger: &mut Ledger,
    mut input: impl BufRead,
    output: &mut Output,
) -> io::Result<()> {
    let mut answers = Answers {
        ledger,
        lines: 0,
        output,
    };
    // The start of a line whose end has not been read yet.
    let mut piece: Vec<u8> = Vec::with_capacity(COLUMNS + 1);
    while answers.lines < MOST_LINES {
        let chunk = match input.fill_buf() {
            Err(error) if error.kind() == ErrorKind::Interrupted => continue,
            chunk => chunk?,
        };
        if chunk.is_empty() {
            if !piece.is_empty() {
                answers.write(Err(NOT_A_LINE))?;
            }
            break;
        }
        answers.chunk(chunk, &mut piece)?;
        let read = chunk.len();
        input.consume(read);
    }
    Ok(())
}

/// The place of the first byte 10; most lines have it in the same place.
fn line_end(bytes: &[u8]) -> Option<usize> {
    if bytes.get(COLUMNS) == Some(&b'\n') && !bytes[..COLUMNS].contains(&b'\n') {
        return Some(COLUMNS);
    }
    bytes.iter().position(|&byte| byte == b'\n')
}

/// Keeps one byte more than a line has; that is enough to refuse it.
fn extend(piece: &mut Vec<u8>, bytes: &[u8]) {
    let room = COLUMNS + 1 - piece.len();
    piece.extend_from_slice(&bytes[..room.min(bytes.len())]);
}

struct Answers<'run, Output> {
    ledger: &'run mut Ledger,
    lines: u32,
    output: &'run mut Output,
}

impl<Output: Write> Answers<'_, Output> {
    /// Answers the lines that end in the chunk, and keeps the rest of it.
    fn chunk(&mut self, chunk: &[u8], piece: &mut Vec<u8>) -> io::Result<()> {
        let mut rest = chunk;
        while self.lines < MOST_LINES {
            let Some(end) = line_end(rest) else {
                extend(piece, rest);
                break;
            };
            if piece.is_empty() {
                self.line(&rest[..end])?;
            } else {
                extend(piece, &rest[..end]);
                self.line(piece)?;
                piece.clear();
            }
            rest = &rest[end + 1..];
        }
        Ok(())
    }

    fn line(&mut self, line: &[u8]) -> io::Result<()> {
        let answer = self.ledger.take_line(line);
        self.write(answer)
    }

    /// The next line's number, 6 wide, and the answer, 3 wide.
    fn write(&mut self, answer: Answer) -> io::Result<()> {
        self.lines += 1;
        let mut text = *b"          ";
        write_number(&mut text[..6], self.lines);
        write_number(&mut text[6..9], u32::from(answer.err().unwrap_or(0)));
        text[9] = b'\n';
        self.output.write_all(&text)
    }
}

/// Writes the digits to the right edge of the columns.
fn write_number(columns: &mut [u8], mut number: u32) {
    for column in columns.iter_mut().rev() {
        *column = b'0' + (number % 10) as u8;
        number /= 10;
        if number == 0 {
            break;
        }
    }
}

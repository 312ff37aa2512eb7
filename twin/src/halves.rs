//! The profile `halves`: refunds around the turn of 2025 to 2026 that come to
//! half a cent.
//!
//! Every collection is settled and refunded: a third of them before the turn, a
//! third across it and a third after it. Five in eight come to an exact half
//! cent, one to a part less, one to a part more; the whole cents below are even
//! and odd in turn. Lines that are left are refunds on closed days and second
//! refunds.

use crate::books::{Books, Fields, COLLECTION_ROWS};
use crate::calendar::{day_number, Day};
use crate::random::Random;

const CREDITORS: i64 = 4;
const MANDATE_ROWS: usize = 16;
const ACCEPTED: usize = CREDITORS as usize + MANDATE_ROWS + 3 * COLLECTION_ROWS;
const LARGEST_AMOUNT: i64 = 99_999_999_999;

/// A cent in amount times rate times days.
const CENT: i64 = 3_600_000;

/// Mandates are signed on it, before all else.
const FIRST_DAY: Day = day_number(2024, 10, 1);
/// 1 January 2026, a closed day.
const TURN: Day = day_number(2026, 1, 1);
/// The other closed days around it.
const CLOSED: [Day; 6] = [TURN - 7, TURN - 6, TURN - 5, TURN - 4, TURN + 2, TURN + 3];

/// A collection and its refund.
struct Row {
    number: i64,
    amount: i64,
    settled: Day,
    refunded: Day,
    rate: i64,
    code: i64,
}

/// Where a row's settle and refund stand to the turn.
#[derive(Clone, Copy, PartialEq)]
enum Side {
    Before,
    Across,
    After,
}

/// What a row's refund has to come to.
struct Aim {
    side: Side,
    /// Whether the whole cents are odd.
    odd: bool,
    /// Parts of a cent more than a half, or any amount.
    beyond: Option<i64>,
}

/// What is sent of a row, in the order of a day.
#[derive(Clone, Copy, PartialEq, Eq, PartialOrd, Ord)]
enum Step {
    Collect,
    Settle,
    Refund,
    RefusedRefund,
}

/// As many events as lines, or all the accepted ones if those are more.
pub fn halves(seed: u64, lines: usize) -> Vec<Fields> {
    let mut halves = Halves {
        random: Random::new(seed, "halves"),
        books: Books::new(),
        rows: Vec::new(),
        events: Vec::new(),
    };
    (1..=CREDITORS).for_each(|creditor| halves.add_creditor(creditor));
    (0..MANDATE_ROWS).for_each(|_| halves.add_mandate());
    (0..COLLECTION_ROWS).for_each(|place| halves.add_row(place));
    for (day, step, place) in halves.steps(lines) {
        halves.send_step(day, step, place);
    }
    halves.events
}

struct Halves {
    random: Random,
    books: Books,
    rows: Vec<Row>,
    /// The events sent.
    events: Vec<Fields>,
}

impl Halves {
    fn event(&self, kind: i64, day: Day, mandate: i64, a: i64) -> Fields {
        [kind, self.books.date(day), mandate, a, 0, 0, 0, 0, 0]
    }

    fn send(&mut self, event: Fields, accepted: bool) {
        assert_eq!(self.books.take(&event), accepted, "{event:?}");
        self.events.push(event);
    }

    fn add_creditor(&mut self, creditor: i64) {
        let mut event = self.event(1, FIRST_DAY, 0, creditor);
        event[4] = self.random.between(1, 4);
        self.send(event, true);
    }

    fn add_mandate(&mut self) {
        let number = self.random.between(1, 999_999_999);
        let creditor = self.random.between(1, CREDITORS);
        let mut event = self.event(2, FIRST_DAY, number, creditor);
        event[4] = self.random.between(1, 4096);
        event[5] = self.random.between(1, 4);
        event[7] = event[1];
        self.send(event, true);
    }

    // ---- Rows ----

    fn add_row(&mut self, place: usize) {
        let aim = Aim {
            side: [Side::Before, Side::Across, Side::After][place % 3],
            odd: place / 3 % 2 == 1,
            beyond: match place / 6 % 8 {
                0..=4 => Some(0),
                5 => Some(-1),
                6 => Some(1),
                _ => None,
            },
        };
        loop {
            if let Some(row) = self.row(&aim) {
                return self.rows.push(row);
            }
        }
    }

    /// A row whose refund comes to the aim, if the days and the rate allow it.
    fn row(&mut self, aim: &Aim) -> Option<Row> {
        let refunded = self.refund_day(aim.side);
        let long_ago = self.random.chance(15);
        let days = if long_ago {
            self.random.between(200, 400)
        } else {
            self.random.between(1, 20)
        };
        let settled = self.business_day_until(refunded - days as Day);
        if (settled > TURN) != (aim.side == Side::After) {
            return None;
        }
        let multiple = self.random.pick(&[1, 1, 30]);
        let rate = multiple * self.random.between(1, 9_999 / multiple);
        let from = self.amount();
        let amount = match aim.beyond {
            Some(beyond) => {
                let product = rate * i64::from(refunded - settled);
                amount_with_half(product, from, aim.odd, beyond)?
            }
            None => from,
        };
        Some(Row {
            number: self.random.between(1, 999_999_999),
            amount,
            settled,
            refunded,
            rate,
            code: self.random.between(i64::from(long_ago), 1),
        })
    }

    /// A business day within a month of the turn, most of them very near.
    fn refund_day(&mut self, side: Side) -> Day {
        let most = self.random.pick(&[5, 30]);
        let away = self.random.between(1, most) as Day;
        match side {
            Side::Before => self.business_day_until(TURN - away),
            Side::Across | Side::After => self.books.calendar.business_day_from(TURN + away),
        }
    }

    /// The last business day on or before the day.
    fn business_day_until(&self, day: Day) -> Day {
        self.books.calendar.business_day_before(day + 1)
    }

    fn amount(&mut self) -> i64 {
        let most = self
            .random
            .pick(&[1, 5_000, 500_000, 500_000, LARGEST_AMOUNT]);
        self.random.between(1, most)
    }

    // ---- What is sent of the rows ----

    fn steps(&mut self, lines: usize) -> Vec<(Day, Step, usize)> {
        let mut steps = Vec::new();
        for place in 0..self.rows.len() {
            let Row {
                settled, refunded, ..
            } = self.rows[place];
            let ahead = self.random.below(8) as Day;
            let presented = self.books.calendar.business_day_before(settled) - ahead;
            steps.push((presented, Step::Collect, place));
            steps.push((settled, Step::Settle, place));
            steps.push((refunded, Step::Refund, place));
        }
        for _ in ACCEPTED..lines {
            let (day, place) = self.refused_refund();
            steps.push((day, Step::RefusedRefund, place));
        }
        steps.sort();
        steps
    }

    /// On a closed day, most often that of the turn, or of what is refunded.
    fn refused_refund(&mut self) -> (Day, usize) {
        let closed = self.random.pick(&CLOSED);
        match self.random.below(8) {
            0..=3 => (TURN, self.settled_on(TURN)),
            4..=5 => (closed, self.settled_on(closed)),
            _ => {
                let place = self.random.below(self.rows.len() as u64) as usize;
                let later = self.rows[place].refunded + self.random.below(5) as Day;
                (self.books.calendar.business_day_from(later), place)
            }
        }
    }

    /// A row that is settled before the day and refunded after it.
    fn settled_on(&mut self, day: Day) -> usize {
        let is_settled = |row: &Row| row.settled < day && day < row.refunded;
        let fitting: Vec<usize> = (0..self.rows.len())
            .filter(|&place| is_settled(&self.rows[place]))
            .collect();
        self.random.pick(&fitting)
    }

    fn send_step(&mut self, day: Day, step: Step, place: usize) {
        let event = match step {
            Step::Collect => self.collect(day, place),
            Step::Settle => self.event(6, day, 0, self.rows[place].number),
            Step::Refund | Step::RefusedRefund => self.refund(day, place),
        };
        self.send(event, step != Step::RefusedRefund);
    }

    fn collect(&self, day: Day, place: usize) -> Fields {
        let row = &self.rows[place];
        let mandate = &self.books.mandates[place % MANDATE_ROWS];
        let mut event = self.event(5, day, mandate.number, row.number);
        event[6] = row.amount;
        event[7] = self.books.date(row.settled);
        event[8] = i64::from(!mandate.first_due);
        event
    }

    fn refund(&self, day: Day, place: usize) -> Fields {
        let row = &self.rows[place];
        let mut event = self.event(9, day, 0, row.number);
        event[4] = row.rate;
        event[8] = row.code;
        event
    }
}

/// An amount that, times the rate and the days, comes to whole cents, a half and
/// the parts beyond it. The first whole cents tried are those of the amount `from`.
fn amount_with_half(product: i64, from: i64, odd: bool, beyond: i64) -> Option<i64> {
    let rest = CENT / 2 + beyond;
    let divisor = common_divisor(product, CENT);
    if rest % divisor != 0 {
        return None;
    }
    let least = from * product / CENT / 2 * 2 + i64::from(odd);
    let wholes = (least..).step_by(2).take((product / divisor) as usize);
    let amount = wholes
        .map(|whole| whole * CENT + rest)
        .find(|parts| parts % product == 0)?
        / product;
    (amount <= LARGEST_AMOUNT).then_some(amount)
}

fn common_divisor(a: i64, b: i64) -> i64 {
    match b {
        0 => a,
        _ => common_divisor(b, a % b),
    }
}

//! Prints an event file: `generate SEED LINES PROFILE`.
//!
//! It keeps books of what it has sent, so that most events make sense, plans
//! settles, undoings and collects around each edge of document 01's rules, and
//! mixes in events to be refused and broken lines. The profile `days` is the
//! same for every seed: it asks of each day in range whether it is open. The
//! profiles `calendar`, `worst` and `halves` are made in modules of their own.

mod books;
mod calendar;
mod halves;
mod lines;
mod lookups;
mod random;
mod seasons;

use books::{Books, Fields, Limits, State};
use calendar::{civil, day_in_range, day_number, easter, lapse_limit, months_after, Day};
use halves::halves;
use lines::{break_line, write_line};
use lookups::Lookups;
use random::Random;
use seasons::Seasons;
use std::collections::BTreeMap;
use std::env::args;
use std::io::{self, BufWriter, Write};
use std::process::exit;

/// Mandates that are neither cancelled nor closed, so that some always live.
const KEPT_LIVE: usize = 8;
/// Events enough to run both tables full; in a longer file they are thinned.
const STORY_EVENTS: u64 = 2_500;

/// What a file is made of.
struct Profile {
    /// Story events in a thousand lines.
    story: u64,
    /// How the other lines are shared out.
    amends: u64,
    refused: u64,
    broken: u64,
    /// Of a hundred story events, those aimed just beyond a rule.
    slips: u64,
    /// Of a hundred collects, those aimed at the 36 months.
    lapses: u64,
    /// Mandates live at one time.
    live_mandates: usize,
}

fn profile(name: &str, random: &mut Random) -> Option<Profile> {
    let mixed = Profile {
        story: 700,
        amends: 3,
        refused: 24,
        broken: 3,
        slips: 30,
        lapses: 25,
        live_mandates: 128,
    };
    match name {
        "mixed" => Some(mixed),
        "accepted" => Some(Profile {
            story: 600,
            amends: 98,
            refused: 2,
            broken: 0,
            slips: 0,
            lapses: 5,
            ..mixed
        }),
        "refused" => Some(Profile {
            story: 250,
            amends: 1,
            refused: 98,
            broken: 1,
            ..mixed
        }),
        "broken" => Some(Profile {
            story: 150,
            amends: 4,
            refused: 6,
            broken: 90,
            ..mixed
        }),
        "edges" => Some(Profile {
            story: 850,
            lapses: 80,
            live_mandates: 3 + random.below(20) as usize,
            ..mixed
        }),
        _ => None,
    }
}

fn main() {
    let words: Vec<String> = args().skip(1).collect();
    let [seed, lines, name] = words.as_slice() else {
        usage()
    };
    let (Ok(seed), Ok(lines)) = (seed.parse(), lines.parse()) else {
        usage()
    };
    let output = BufWriter::with_capacity(1 << 16, io::stdout().lock());
    let written = match name.as_str() {
        "days" => write_all(days(), lines, output),
        "calendar" => write_all(Seasons::new(seed, lines), lines, output),
        "worst" => write_all(Lookups::new(seed), lines, output),
        "halves" => write_all(halves(seed, lines).into_iter(), lines, output),
        _ => write_events(seed, lines, name, output),
    };
    if let Err(error) = written {
        eprintln!("generate: {error}");
        exit(1);
    }
}

/// Settles of an unknown collection on every day in range, and on numbers
/// between the days.
fn days() -> impl Iterator<Item = Fields> {
    let dates = (2010..=2189).flat_map(|year| {
        (0..=13).flat_map(move |month| (0..=32).map(move |day| year * 10000 + month * 100 + day))
    });
    dates.map(|date| [6, date, 0, 1, 0, 0, 0, 0, 0])
}

fn write_all(
    events: impl Iterator<Item = Fields>,
    lines: usize,
    mut output: impl Write,
) -> io::Result<()> {
    for event in events.take(lines) {
        output.write_all(&write_line(&event))?;
    }
    output.flush()
}

fn write_events(seed: u64, lines: usize, name: &str, output: impl Write) -> io::Result<()> {
    let mut random = Random::new(seed, name);
    let Some(mut profile) = profile(name, &mut random) else {
        usage()
    };
    if lines > 0 {
        profile.story = profile.story.min(STORY_EVENTS * 1000 / lines as u64 + 1);
    }
    Generator::new(profile, random).write(lines, output)
}

fn usage() -> ! {
    eprintln!("usage: generate SEED LINES PROFILE");
    eprintln!("profiles: mixed accepted refused broken edges calendar worst halves days");
    exit(2)
}

/// An event meant for a later day; rows are named by their place in the books.
#[derive(Clone, Copy)]
enum Plan {
    Collect { mandate: usize, requested: Day },
    Settle { collection: usize },
    Reject { collection: usize },
    Undo { collection: usize, undoing: Undoing },
    Amend { mandate: usize },
    Cancel { mandate: usize },
}

#[derive(Clone, Copy)]
enum Undoing {
    Return,
    Reversal,
    AuthorisedRefund,
    UnauthorisedRefund,
}

struct Generator {
    profile: Profile,
    random: Random,
    books: Books,
    /// The day events are dated; the books' latest date is never after it.
    today: Day,
    agenda: BTreeMap<(Day, u64), Plan>,
    planned: u64,
}

impl Generator {
    fn new(profile: Profile, mut random: Random) -> Generator {
        let books = Books::new();
        let today = first_day(&books, &mut random);
        Generator {
            profile,
            random,
            books,
            today,
            agenda: BTreeMap::new(),
            planned: 0,
        }
    }

    fn write(&mut self, lines: usize, mut output: impl Write) -> io::Result<()> {
        let mut left = lines;
        while left > 0 {
            let mut line = self.line(left);
            left -= line.iter().filter(|&&byte| byte == b'\n').count();
            let leave_unended = left == 0 && line.len() > 1 && self.random.chance(30);
            if leave_unended {
                line.pop();
            }
            output.write_all(&line)?;
        }
        output.flush()
    }

    fn line(&mut self, left: usize) -> Vec<u8> {
        if self.random.below(1000) < self.profile.story {
            return write_line(&self.story());
        }
        let Profile {
            amends,
            refused,
            broken,
            ..
        } = self.profile;
        let roll = self.random.below(amends + refused + broken);
        if roll < amends {
            write_line(&self.amend_of_live())
        } else if roll < amends + refused {
            write_line(&self.refused())
        } else {
            let event = self.likely_event();
            break_line(write_line(&event), left, &mut self.random)
        }
    }

    // ---- The story: events that make sense, and slips around their edges ----

    fn story(&mut self) -> Fields {
        loop {
            if let Some(event) = self.planned_event() {
                return event;
            }
            if self.agenda.is_empty() && self.is_worked_out() {
                return self.after_the_story();
            }
            if self.random.chance(45) {
                return self.new_event();
            }
            self.advance();
        }
    }

    /// Nothing more can come: the tables are full or the last day is reached.
    fn is_worked_out(&self) -> bool {
        self.books.is_full() || self.today == self.books.last_day
    }

    fn after_the_story(&mut self) -> Fields {
        if self.profile.slips == 0 {
            self.amend_of_live()
        } else if self.random.chance(80) {
            self.refused()
        } else {
            self.new_event()
        }
    }

    fn plan(&mut self, day: Day, plan: Plan) {
        if day <= self.books.last_day {
            self.planned += 1;
            self.agenda.insert((day, self.planned), plan);
        }
    }

    /// Goes to the next planned day, or stays a while on the way.
    fn advance(&mut self) {
        let stroll = self.today + 1 + self.random.below(9) as Day;
        let next = match self.agenda.first_key_value() {
            Some((&(day, _), _)) if self.random.chance(80) => day,
            Some((&(day, _), _)) => day.min(stroll),
            None if self.random.chance(30) => self.before_special_day(),
            None => stroll,
        };
        self.today = next.clamp(self.today, self.books.last_day);
    }

    /// A few days before Easter, a leap day, 1 May or the end of a year.
    fn before_special_day(&mut self) -> Day {
        let (year, ..) = civil(self.today);
        let year = year + self.random.below(3) as i32;
        let special = match self.random.below(4) {
            0 => easter(year) - 2,
            1 => day_number((year + 3) / 4 * 4, 3, 1) - 1,
            2 => day_number(year, 5, 1),
            _ => day_number(year, 12, 24),
        };
        special - 1 - self.random.below(8) as Day
    }

    fn planned_event(&mut self) -> Option<Fields> {
        let (&(day, _), _) = self.agenda.first_key_value()?;
        if day > self.today {
            return None;
        }
        let (_, plan) = self.agenda.pop_first()?;
        if self.profile.slips == 0 && self.is_refused(plan) {
            return None;
        }
        Some(match plan {
            Plan::Collect { mandate, requested } => self.collect(mandate, requested),
            Plan::Settle { collection } => self.settle(collection),
            Plan::Reject { collection } => self.send(7, collection),
            Plan::Undo {
                collection,
                undoing,
            } => self.undo(collection, undoing),
            Plan::Amend { mandate } => self.amend(mandate),
            Plan::Cancel { mandate } => self.cancel(mandate),
        })
    }

    /// The mandate of the plan has ended or lapsed since it was made.
    fn is_refused(&self, plan: Plan) -> bool {
        match plan {
            Plan::Collect { mandate, .. } => !self.may_collect(mandate),
            Plan::Amend { mandate } | Plan::Cancel { mandate } => {
                !self.books.mandates[mandate].live
            }
            _ => false,
        }
    }

    fn may_collect(&self, mandate: usize) -> bool {
        let row = &self.books.mandates[mandate];
        let lapsed = lapse_limit(row.counted_from) < self.today + 20;
        row.live && !lapsed && !self.books.collections_full()
    }

    fn new_event(&mut self) -> Fields {
        if self.books.creditors.len() < 2 || self.random.chance(2) {
            return self.creditor();
        }
        let live = self.books.live_mandates();
        let few =
            live.len() < self.profile.live_mandates && (!self.books.mandates_full() || self.slip());
        if live.is_empty() || (few && self.random.chance(35)) {
            return self.mandate();
        }
        let mandate = self.random.pick(&live);
        match self.random.below(20) {
            0 if mandate >= KEPT_LIVE => self.cancel(mandate),
            0..=2 => self.amend(mandate),
            _ if self.profile.slips == 0 && !self.may_collect(mandate) => self.amend(mandate),
            _ => {
                let requested = self.requested();
                self.collect(mandate, requested)
            }
        }
    }

    fn creditor(&mut self) -> Fields {
        let creditor = self.random.between(1, 256);
        let bank = self.bank();
        let event = self.event(1, 0, [creditor, bank, 0], 0, 0, 0);
        self.books.take(&event);
        event
    }

    /// Few banks, so that both sides are often at the same one.
    fn bank(&mut self) -> i64 {
        match self.random.below(8) {
            0 => 64,
            1 => self.random.between(1, 64),
            _ => self.random.between(1, 4),
        }
    }

    fn mandate(&mut self) -> Fields {
        let number = self.fresh_number();
        let creditor = self.random.pick(&self.books.creditors);
        let debtor = match self.random.below(6) {
            0 => 4096,
            1 => self.random.between(1, 4096),
            _ => self.random.between(1, 9),
        };
        let bank = self.bank();
        let one_off = self.books.mandates.len() >= KEPT_LIVE && self.random.chance(20);
        let signing = self.signing();
        let event = self.event(
            2,
            number,
            [creditor, debtor, bank],
            0,
            self.books.date(signing),
            i64::from(one_off),
        );
        if self.books.take(&event) {
            let mandate = self.books.mandates.len() - 1;
            self.plan_first_collect(mandate, signing);
        }
        event
    }

    /// Today, some time ago, on a leap day, or about 36 months ago.
    fn signing(&mut self) -> Day {
        let today = self.today;
        let (year, ..) = civil(today);
        let signing = match self.random.below(10) {
            0..=3 => today,
            4..=5 => today - self.random.below(700) as Day,
            6 => day_number(year / 4 * 4, 3, 1) - 1,
            7 if self.profile.slips == 0 => today,
            _ => months_after(today, -36) + self.random.between(-4, 25) as Day,
        };
        signing.clamp(self.books.first_day, today)
    }

    fn plan_first_collect(&mut self, mandate: usize, signing: Day) {
        let limit = lapse_limit(signing);
        if self.random.chance(self.profile.lapses) && limit > self.today + 15 {
            self.plan_collect_around(mandate, limit);
        } else if self.random.chance(80) {
            let requested = self.requested();
            self.plan(self.today, Plan::Collect { mandate, requested });
        }
    }

    /// A collect whose kept due falls on, before or after the limit.
    fn plan_collect_around(&mut self, mandate: usize, limit: Day) {
        let beyond = if self.profile.slips == 0 { -2 } else { 3 };
        let requested = limit + self.random.between(-4, beyond) as Day;
        let day = requested - self.random.between(1, 14) as Day;
        self.plan(day, Plan::Collect { mandate, requested });
    }

    /// A requested date, 0 to 15 days ahead, closed days preferred.
    fn requested(&mut self) -> Day {
        let ahead = if self.profile.slips == 0 {
            self.random.between(5, 14)
        } else {
            self.random.between(0, 15)
        };
        let today = self.today;
        let holidays: Vec<Day> = (today + 1..today + 15)
            .filter(|&day| self.books.is_holiday(day))
            .collect();
        let requested = if !holidays.is_empty() && self.random.chance(40) {
            self.random.pick(&holidays) + self.random.between(-1, 1) as Day
        } else {
            today + ahead as Day
        };
        requested.clamp(today, self.books.last_day)
    }

    fn collect(&mut self, mandate: usize, requested: Day) -> Fields {
        let number = self.fresh_number();
        let amount = self.amount();
        let row = &self.books.mandates[mandate];
        let code = if row.one_off {
            3
        } else if row.first_due {
            0
        } else if mandate >= KEPT_LIVE && self.random.chance(12) {
            2
        } else {
            1
        };
        let requested_date = self.books.date(requested);
        let row = self.books.mandates[mandate].number;
        let event = self.event(5, row, [number, 0, 0], amount, requested_date, code);
        if self.books.take(&event) {
            let collection = self.books.collections.len() - 1;
            self.plan_outcome(collection);
            self.plan_next_collect(mandate);
        }
        event
    }

    fn amount(&mut self) -> i64 {
        match self.random.below(8) {
            0 => 1,
            1 => 99_999_999_999,
            2 => self.random.between(1, 99_999_999_999),
            3 => self.random.between(1, 200) * 5_000,
            4 => self.random.between(1, 40) * 50_000,
            _ => self.random.between(100, 500_000),
        }
    }

    fn plan_next_collect(&mut self, mandate: usize) {
        let row = &self.books.mandates[mandate];
        if !row.live {
            return;
        }
        let limit = lapse_limit(row.counted_from);
        if limit <= self.books.last_day && self.random.chance(self.profile.lapses) {
            self.plan_collect_around(mandate, limit);
        } else if self.random.chance(50) {
            let day = self.today + self.random.between(15, 45) as Day;
            let requested = day + self.random.between(5, 14) as Day;
            self.plan(day, Plan::Collect { mandate, requested });
        }
    }

    /// Settles and rejections of a collection just presented.
    fn plan_outcome(&mut self, collection: usize) {
        let due = self.books.collections[collection].kept_due;
        let settle = Plan::Settle { collection };
        let reject = Plan::Reject { collection };
        if self.slip() {
            let early = due - self.random.between(1, 3) as Day;
            self.plan(early.max(self.today), settle);
        }
        match self.random.below(20) {
            0..=12 => self.plan(due, settle),
            13..=15 => {
                let late = self.settle_late(due);
                self.plan(late, settle);
            }
            16..=18 => {
                let day = self.random.between(self.today.into(), (due + 4).into()) as Day;
                self.plan(day, reject);
            }
            _ => {}
        }
        if self.slip() {
            let again = due + self.random.between(0, 6) as Day;
            let plan = self.random.pick(&[settle, settle, reject]);
            self.plan(again, plan);
        }
    }

    /// The month's last business day, or some days late.
    fn settle_late(&mut self, due: Day) -> Day {
        let (year, month, _) = civil(due);
        if self.random.chance(50) {
            let next_month = months_after(day_number(year, month, 1), 1);
            self.books.calendar.business_day_before(next_month).max(due)
        } else {
            let late = due + self.random.below(30) as Day;
            self.books.calendar.business_day_from(late)
        }
    }

    fn slip(&mut self) -> bool {
        self.random.chance(self.profile.slips)
    }

    /// An event that names a collection alone.
    fn send(&mut self, kind: i64, collection: usize) -> Fields {
        let number = self.books.collections[collection].number;
        let event = self.event(kind, 0, [number, 0, 0], 0, 0, 0);
        self.books.take(&event);
        event
    }

    fn settle(&mut self, collection: usize) -> Fields {
        let before = self.books.collections[collection].state;
        let event = self.send(6, collection);
        if before != self.books.collections[collection].state {
            self.plan_undoing(collection);
        }
        event
    }

    /// An undoing around its last day, and changes of the mandate before it.
    fn plan_undoing(&mut self, collection: usize) {
        if self.random.chance(15) {
            return;
        }
        let undoing = self.random.pick(&[
            Undoing::Return,
            Undoing::Reversal,
            Undoing::AuthorisedRefund,
            Undoing::UnauthorisedRefund,
        ]);
        let day = self.undoing_day(undoing);
        self.plan(
            day,
            Plan::Undo {
                collection,
                undoing,
            },
        );
        let mandate = self.books.collections[collection].mandate;
        let between = self.random.between(self.today.into(), day.into()) as Day;
        match self.random.below(10) {
            0..=3 => self.plan(between, Plan::Amend { mandate }),
            4 if mandate >= KEPT_LIVE => self.plan(between, Plan::Cancel { mandate }),
            _ => {}
        }
    }

    /// The day to undo what is settled today.
    fn undoing_day(&mut self, undoing: Undoing) -> Day {
        let settled = self.today;
        let calendar = &self.books.calendar;
        let last = match undoing {
            Undoing::Return | Undoing::Reversal => calendar.last_return(settled),
            Undoing::AuthorisedRefund => calendar.last_authorised_refund(settled),
            Undoing::UnauthorisedRefund => calendar.last_unauthorised_refund(settled),
        };
        let day_before = calendar.business_day_before(last);
        let day_after = calendar.business_days_after(1, last);
        match self.random.below(20) {
            0..=5 => last,
            6..=8 => day_before,
            9..=13 if self.profile.slips > 0 => day_after,
            14 if self.profile.slips > 0 => last + 1,
            15 if self.profile.slips > 0 => last - 1,
            16 => settled,
            17 => calendar.business_days_after(1, settled),
            _ => {
                let day = self.random.between(settled.into(), last.into()) as Day;
                self.books.calendar.business_day_from(day)
            }
        }
    }

    fn undo(&mut self, collection: usize, undoing: Undoing) -> Fields {
        let before = self.books.collections[collection].state;
        let event = match undoing {
            Undoing::Return => self.send(8, collection),
            Undoing::Reversal => self.send(10, collection),
            Undoing::AuthorisedRefund => self.refund(collection, 0),
            Undoing::UnauthorisedRefund => self.refund(collection, 1),
        };
        let State::Settled(settled) = before else {
            return event;
        };
        if before != self.books.collections[collection].state {
            self.plan_second_undoing(collection);
        } else {
            self.plan_refund_instead(collection, settled, undoing);
        }
        event
    }

    fn plan_second_undoing(&mut self, collection: usize) {
        if !self.slip() {
            return;
        }
        let day = self.today + self.random.below(4) as Day;
        let undoing = self.random.pick(&[
            Undoing::Return,
            Undoing::Reversal,
            Undoing::UnauthorisedRefund,
        ]);
        let settle = Plan::Settle { collection };
        let undo = Plan::Undo {
            collection,
            undoing,
        };
        let plan = self.random.pick(&[settle, undo, undo]);
        self.plan(day, plan);
    }

    /// After a refused undoing, a refund with a later last day.
    fn plan_refund_instead(&mut self, collection: usize, settled: Day, undoing: Undoing) {
        let calendar = &self.books.calendar;
        let (undoing, last) = match undoing {
            Undoing::Return | Undoing::Reversal => (
                Undoing::AuthorisedRefund,
                calendar.last_authorised_refund(settled),
            ),
            _ => (
                Undoing::UnauthorisedRefund,
                calendar.last_unauthorised_refund(settled),
            ),
        };
        if last >= self.today && self.random.chance(70) {
            let day = last + self.random.pick(&[-1, 0, 0, 0, 1]);
            self.plan(
                day,
                Plan::Undo {
                    collection,
                    undoing,
                },
            );
        }
    }

    fn refund(&mut self, collection: usize, code: i64) -> Fields {
        let rate = self.rate(collection);
        let number = self.books.collections[collection].number;
        let event = self.event(9, 0, [number, rate, 0], 0, 0, code);
        self.books.take(&event);
        event
    }

    /// Any rate, an end of the range, or one that comes nearest to half a cent.
    fn rate(&mut self, collection: usize) -> i64 {
        match self.random.below(6) {
            0 => 0,
            1 => 9_999,
            2 => self.random.between(0, 9_999),
            _ => {
                let row = &self.books.collections[collection];
                let State::Settled(settled) = row.state else {
                    return 360;
                };
                let step = row.amount * i64::from(self.today - settled) % 3_600_000;
                let from = self.random.between(1, 9_000);
                (from..=9_999)
                    .min_by_key(|rate| (step * rate % 3_600_000 - 1_800_000).abs())
                    .unwrap_or(360)
            }
        }
    }

    fn amend(&mut self, mandate: usize) -> Fields {
        let number = self.books.mandates[mandate].number;
        let event = if self.random.chance(70) {
            let bank = self.bank();
            self.event(3, number, [0, 0, bank], 0, 0, 0)
        } else {
            let creditor = self.random.pick(&self.books.creditors);
            self.event(3, number, [creditor, 0, 0], 0, 0, 1)
        };
        self.books.take(&event);
        event
    }

    fn cancel(&mut self, mandate: usize) -> Fields {
        let number = self.books.mandates[mandate].number;
        let event = self.event(4, number, [0; 3], 0, 0, 0);
        self.books.take(&event);
        event
    }

    fn event(
        &self,
        kind: i64,
        mandate: i64,
        [a, b, c]: [i64; 3],
        amount: i64,
        second: i64,
        code: i64,
    ) -> Fields {
        let date = self.books.date(self.today);
        [kind, date, mandate, a, b, c, amount, second, code]
    }

    /// A number for a new row; mandates and collections may share numbers.
    fn fresh_number(&mut self) -> i64 {
        match self.random.below(40) {
            0 => 1,
            1 => 999_999_999,
            2..=12 => self.random.between(1, 999_999_999),
            _ => self.random.between(1, 20_000),
        }
    }

    fn amend_of_live(&mut self) -> Fields {
        if self.books.creditors.is_empty() {
            return self.creditor();
        }
        let live = self.books.live_mandates();
        if live.is_empty() {
            return self.mandate();
        }
        let mandate = self.random.pick(&live);
        self.amend(mandate)
    }

    // ---- Events to be refused ----

    /// An event aimed at one refusal number, at times spoilt a second time.
    fn refused(&mut self) -> Fields {
        let aim = self.random.between(3, 17);
        if aim == 10 {
            return self.adding();
        }
        let mut event = self.aimed_at(aim);
        let mut known_refused = aim <= 5;
        if self.random.chance(25) {
            let second = self.random.between(3, 7);
            self.spoil(&mut event, second);
            known_refused |= second <= 5;
        }
        if !known_refused {
            self.books.take(&event);
        }
        event
    }

    fn aimed_at(&mut self, refusal: i64) -> Fields {
        match refusal {
            8 => self.adding_again(),
            9 => self.naming_nothing(),
            11 => self.of_mandate(|row, _| !row.live, &[3, 4, 5]),
            12 => {
                let mut event = self.of_mandate(|row, _| row.live, &[5]);
                event[8] = self.random.between(0, 3);
                event
            }
            13 => {
                let mut event = self.of_mandate(|row, _| row.live, &[5]);
                let ahead = self.random.pick(&[-30, -1, 0, 1, 2, 3, 14, 15, 16, 40]);
                let requested = self.today + ahead;
                let in_range = requested.clamp(self.books.first_day, self.books.last_day);
                event[7] = self.books.date(in_range);
                event
            }
            14 => self.of_mandate(
                |row, today| row.live && lapse_limit(row.counted_from) < today,
                &[5],
            ),
            15 => {
                let kind = self.random.pick(&[6, 7, 8, 9, 10]);
                let presented_only = kind <= 7;
                self.of_collection(kind, |state| {
                    presented_only != matches!(state, State::Presented)
                        && (presented_only || !matches!(state, State::Settled(_)))
                })
            }
            16 => self.of_collection(6, |state| matches!(state, State::Presented)),
            17 => {
                let kind = self.random.pick(&[8, 9, 10]);
                let today = self.today;
                self.of_collection(
                    kind,
                    |state| matches!(state, State::Settled(settled) if settled + 5 < today),
                )
            }
            _ => {
                let mut event = self.likely_event();
                self.spoil(&mut event, refusal);
                event
            }
        }
    }

    /// Spoils an event for refusal 3 to 7.
    fn spoil(&mut self, event: &mut Fields, refusal: i64) {
        match refusal {
            3 => event[0] = self.random.pick(&[0, 11, 11, 12, 13, 14, 20, 99]),
            4 => event[1] = self.bad_date(),
            5 => self.spoil_field(event),
            6 => {
                let earlier = self.today - self.random.pick(&[1, 1, 2, 3, 30, 366, 20_000]);
                event[1] = self.books.date(earlier.max(self.books.first_day));
            }
            _ => {
                if !matches!(event[0], 6 | 8..=10) {
                    *event = self.of_collection(8, |_| true);
                }
                let week = self.today..self.today + 7;
                let closed: Vec<Day> = week
                    .filter(|&day| !self.books.calendar.is_business_day(day))
                    .collect();
                let day = self.random.pick(&closed);
                event[1] = self.books.date(day);
            }
        }
    }

    /// A number in the date columns that is no date in range.
    fn bad_date(&mut self) -> i64 {
        let (year, month, day) = civil(self.today);
        let (year, month, day) = (i64::from(year), i64::from(month), i64::from(day));
        let date = match self.random.below(12) {
            0 => 0,
            1 => 20091231,
            2 => 21900101,
            3 => year * 10000 + 229,
            4 => year * 10000 + 1300 + day,
            5 => year * 10000 + month * 100,
            6 => year * 10000 + month * 100 + 31,
            7 => year * 10000 + month * 100 + 32,
            8 => year * 10000 + 431,
            9 => year * 10000 + day,
            10 => 999_999_999,
            _ => self.random.between(0, 99_999_999),
        };
        match day_in_range(date) {
            Some(_) => 21000229,
            None => date,
        }
    }

    /// Puts one field just outside its limits, or at the widest its columns
    /// hold.
    fn spoil_field(&mut self, event: &mut Fields) {
        let field = self.random.between(2, 8) as usize;
        let limits = books::limits(event)[field - 2];
        let Limits::Numbers(least, most) = limits else {
            event[field] = self.bad_date();
            if event[0] == 2 && self.today < self.books.last_day && self.random.chance(50) {
                event[field] = self.books.date(self.today + 1);
            }
            return;
        };
        let widest = match field {
            6 => 999_999_999_999,
            7 => 999_999_999,
            8 => 99,
            _ => 9_999_999_999,
        };
        let beyond = self.random.between(most + 1, widest);
        event[field] = match self.random.below(8) {
            0..=2 if least > 0 => least - 1,
            3 => widest,
            4 => beyond,
            _ => most + 1,
        };
    }

    fn adding(&mut self) -> Fields {
        let live = self.books.live_mandates();
        if self.books.creditors.is_empty() {
            self.creditor()
        } else if live.is_empty() || self.random.chance(50) {
            self.mandate()
        } else {
            let mandate = self.random.pick(&live);
            let requested = self.today + 7;
            self.collect(mandate, requested.min(self.books.last_day))
        }
    }

    fn adding_again(&mut self) -> Fields {
        let mut event = self.likely_of(&[1, 2, 5]);
        match event[0] {
            1 if !self.books.creditors.is_empty() => {
                event[3] = self.random.pick(&self.books.creditors);
            }
            2 if !self.books.mandates.is_empty() => {
                event[2] = self.any_mandate();
            }
            5 if !self.books.collections.is_empty() => {
                event[3] = self.any_collection();
            }
            _ => {}
        }
        event
    }

    fn naming_nothing(&mut self) -> Fields {
        let mut event = self.likely_of(&[2, 3, 3, 4, 5, 6, 7, 8, 9, 10]);
        let unknown = self.random.between(20_001, 900_000);
        match event[0] {
            2 => event[3] = self.random.between(1, 256),
            3 if event[8] == 1 && self.random.chance(50) => {
                event[3] = self.random.between(1, 256);
            }
            3..=5 => event[2] = unknown,
            _ => event[3] = unknown,
        }
        event
    }

    fn any_mandate(&mut self) -> i64 {
        let place = self.random.below(self.books.mandates.len() as u64);
        self.books.mandates[place as usize].number
    }

    fn any_collection(&mut self) -> i64 {
        let place = self.random.below(self.books.collections.len() as u64);
        self.books.collections[place as usize].number
    }

    /// An event that looks right; the rules may still refuse it.
    fn likely_event(&mut self) -> Fields {
        self.likely_of(&[1, 2, 3, 4, 5, 6, 7, 8, 9, 10])
    }

    fn likely_of(&mut self, kinds: &[i64]) -> Fields {
        match self.random.pick(kinds) {
            1 => {
                let (creditor, bank) = (self.random.between(1, 256), self.bank());
                self.event(1, 0, [creditor, bank, 0], 0, 0, 0)
            }
            2 => {
                let number = self.fresh_number();
                let creditor = match self.books.creditors.is_empty() {
                    true => 1,
                    false => self.random.pick(&self.books.creditors),
                };
                let parties = [creditor, self.random.between(1, 4096), self.bank()];
                let signing = self.signing();
                let code = self.random.between(0, 1);
                self.event(2, number, parties, 0, self.books.date(signing), code)
            }
            kind @ 3..=5 => self.of_mandate(|_, _| true, &[kind]),
            kind => self.of_collection(kind, |_| true),
        }
    }

    /// An amend, cancel or collect of a mandate that fits, if there is one.
    fn of_mandate(&mut self, fits: fn(&books::Mandate, Day) -> bool, kinds: &[i64]) -> Fields {
        let fitting: Vec<usize> = (0..self.books.mandates.len())
            .filter(|&place| fits(&self.books.mandates[place], self.today))
            .collect();
        let kind = self.random.pick(kinds);
        let (number, code) = if fitting.is_empty() {
            (self.fresh_number(), 0)
        } else {
            let row = &self.books.mandates[self.random.pick(&fitting)];
            let code = match (row.one_off, row.first_due) {
                (true, _) => 3,
                (_, true) => 0,
                _ => 1,
            };
            (row.number, code)
        };
        match kind {
            3 if self.random.chance(50) => {
                let bank = self.bank();
                self.event(3, number, [0, 0, bank], 0, 0, 0)
            }
            3 => {
                let creditor = self.random.between(1, 256);
                self.event(3, number, [creditor, 0, 0], 0, 0, 1)
            }
            4 => self.event(4, number, [0; 3], 0, 0, 0),
            _ => {
                let collection = self.fresh_number();
                let amount = self.amount();
                let requested = (self.today + 7).min(self.books.last_day);
                let requested = self.books.date(requested);
                self.event(5, number, [collection, 0, 0], amount, requested, code)
            }
        }
    }

    /// An event on a collection in a state that fits, if there is one.
    fn of_collection(&mut self, kind: i64, fits: impl Fn(State) -> bool) -> Fields {
        let fitting: Vec<i64> = self
            .books
            .collections
            .iter()
            .filter(|row| fits(row.state))
            .map(|row| row.number)
            .collect();
        let number = if fitting.is_empty() {
            self.fresh_number()
        } else {
            self.random.pick(&fitting)
        };
        let (rate, code) = match kind {
            9 => (self.random.between(0, 9_999), self.random.between(0, 1)),
            _ => (0, 0),
        };
        self.event(kind, 0, [number, rate, 0], 0, 0, code)
    }
}

/// The first or one of the last years, around 2100, or any year.
fn first_day(books: &Books, random: &mut Random) -> Day {
    let year = match random.below(6) {
        0 => return books.first_day,
        1 => random.between(2185, 2189),
        2 => random.between(2094, 2099),
        3 => random.between(2019, 2027),
        _ => random.between(2010, 2180),
    };
    day_number(year as i32, 1, 1) + random.below(365) as Day
}

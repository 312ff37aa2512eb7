use crate::calendar::{civil, day_in_range, day_number, easter, lapse_limit, months_after};
use crate::calendar::{Calendar, Day, Days, FIRST_YEAR, LAST_YEAR};
use crate::ledger::{compensation, Answer, Ledger};
use crate::{run, COLLECTION_ROWS, MANDATE_ROWS};

/// Remainders of day numbers by 7.
const THURSDAY: Day = 1;
const MONDAY: Day = 5;

const EXAMPLE: &str = include_str!("../cases/example.txt");

const EXAMPLE_OUTPUT: &str = "     1  0
     2  0
     3  0
     4  7
     5  0
     6  0
     7 15
 1     1               -10
 3     1               -10
 3     2                10
 4     0                10
";

fn day(date: i64) -> Day {
    day_in_range(date).unwrap()
}

fn output(input: &[u8]) -> String {
    let mut output = Vec::new();
    run(input, &mut output).unwrap();
    String::from_utf8(output).unwrap()
}

/// The line of an event written as its nine numbers.
fn line(event: &[i64; 9]) -> String {
    let [kind, date, mandate, a, b, c, amount, second, code] = *event;
    format!("{kind:2}{date:9}{mandate:10}{a:10}{b:10}{c:10}{amount:12}{second:9}{code:2}")
}

/// What the ledger hands on for each event: the days slid, or the refusal number.
fn handed_on(events: &[[i64; 9]]) -> Vec<Answer> {
    let mut ledger = Ledger::new(MANDATE_ROWS, COLLECTION_ROWS);
    let take = |event| ledger.take_line(line(event).as_bytes());
    events.iter().map(take).collect()
}

fn answers(events: &[[i64; 9]]) -> Vec<u8> {
    let answer = |taken: &Answer| taken.err().unwrap_or(0);
    handed_on(events).iter().map(answer).collect()
}

/// Compensation in a refund of the date, so many days after the settled day.
fn cents(date: i64, amount: i64, rate: i64, days: Days) -> i64 {
    compensation(amount, rate, day(date) - days, day(date))
}

/// A collection settled on 20240402, then the given undoing.
fn undo_after_20240402(kind: i64, date: i64, code: i64) -> u8 {
    let events = [
        [1, 20240325, 0, 1, 1, 0, 0, 0, 0],
        [2, 20240325, 7, 1, 5, 2, 0, 20240325, 0],
        [5, 20240325, 7, 70, 0, 0, 10000, 20240329, 0],
        [6, 20240402, 0, 70, 0, 0, 0, 0, 0],
        [kind, date, 0, 70, 0, 0, 0, 0, code],
    ];
    let answers = answers(&events);
    assert_eq!(answers[..4], [0, 0, 0, 0]);
    answers[4]
}

/// A collect kept as 20240402, then one of the given requested date.
fn collect_after_20240402(requested: i64) -> u8 {
    let events = [
        [1, 20240325, 0, 1, 1, 0, 0, 0, 0],
        [2, 20240325, 7, 1, 5, 2, 0, 20240325, 0],
        [5, 20240325, 7, 70, 0, 0, 10000, 20240329, 0],
        [5, 20270401, 7, 71, 0, 0, 10000, requested, 1],
    ];
    let answers = answers(&events);
    assert_eq!(answers[..3], [0, 0, 0]);
    answers[3]
}

#[test]
fn thirteen_dates_and_cents() {
    let calendar = Calendar::new();
    assert_eq!(easter(2024), day(20240331));
    assert_eq!(calendar.kept_due(day(20240329)), (day(20240402), 4));
    assert_eq!(undo_after_20240402(8, 20240409, 0), 0);
    assert_eq!(undo_after_20240402(8, 20240410, 0), 17);
    assert_eq!(undo_after_20240402(9, 20240530, 0), 0);
    assert_eq!(undo_after_20240402(9, 20240531, 0), 17);
    assert_eq!(undo_after_20240402(9, 20250605, 1), 0);
    assert_eq!(undo_after_20240402(9, 20250606, 1), 17);
    assert_eq!(months_after(day(20250131), 13), day(20260228));
    assert_eq!(collect_after_20240402(20270402), 0);
    assert_eq!(collect_after_20240402(20270405), 14);
    assert_eq!(cents(20240403, 5000, 360, 1), 1);
    assert_eq!(cents(20240402, 5000, 360, 0), 0);
}

#[test]
fn example_of_document_01() {
    assert_eq!(output(EXAMPLE.as_bytes()), EXAMPLE_OUTPUT);
}

#[test]
fn no_input() {
    assert_eq!(output(b""), " 4     0                 0\n");
}

#[test]
fn unended_last_piece_is_a_refused_line() {
    let unended = &EXAMPLE.as_bytes()[..74];
    assert_eq!(output(unended), "     1  1\n 4     0                 0\n");
}

#[test]
fn input_in_small_pieces() {
    for size in [1, 7, 74, 75, 76] {
        let mut output = Vec::new();
        let input = std::io::BufReader::with_capacity(size, EXAMPLE.as_bytes());
        run(input, &mut output).unwrap();
        assert_eq!(output, EXAMPLE_OUTPUT.as_bytes());
    }
}

#[test]
fn at_most_999_999_lines() {
    let lines = "\n".repeat(1_000_001);
    let output = output(lines.as_bytes());
    assert_eq!(output.lines().count(), 1_000_000);
    assert!(output.ends_with("999999  1\n 4     0                 0\n"));
}

/// Easter as document 01 works it out.
fn computus(y: i32) -> Day {
    let (a, b, c) = (y % 19, y / 100, y % 100);
    let (d, e) = (b / 4, b % 4);
    let f = (b + 8) / 25;
    let g = (b - f + 1) / 3;
    let h = (19 * a + b - d - g + 15) % 30;
    let (i, k) = (c / 4, c % 4);
    let l = (32 + 2 * e + 2 * i - h - k) % 7;
    let m = (a + 11 * h + 22 * l) / 451;
    let s = h + l - 7 * m + 114;
    day_number(y, s / 31, s % 31 + 1)
}

#[test]
fn easter_is_the_computus() {
    for year in 2000..2200 {
        assert_eq!(easter(year), computus(year), "{year}");
    }
}

#[test]
fn days_follow_each_other() {
    let mut expected = day(20100101);
    for date in 20100101..=21891231 {
        if let Some(day) = day_in_range(date) {
            assert_eq!(day, expected);
            let (year, month, of_month) = civil(day);
            assert_eq!(i64::from(year * 10000 + month * 100 + of_month), date);
            expected += 1;
        }
    }
    assert_eq!(expected - day(20100101), 65_744);
}

#[test]
fn kept_dues_and_days_slid() {
    let calendar = Calendar::new();
    let cases = [
        // Good Friday, a Christmas on a Thursday, a Saturday before Christmas.
        (20240329, 20240402, 4),
        (20251225, 20251229, 4),
        (20231223, 20231227, 4),
        (20251226, 20251229, 3),
        (20240406, 20240408, 2),
        (20240407, 20240408, 1),
        (20240405, 20240405, 0),
        (20891225, 20891227, 2),
        (20100101, 20100104, 3),
        (21891231, 21891231, 0),
    ];
    for (requested, kept_due, days_slid) in cases {
        let expected = (day(kept_due), days_slid);
        assert_eq!(calendar.kept_due(day(requested)), expected, "{requested}");
    }
}

/// Of the years 2000 to 2199 the twin's calendar answers for those from 2009 to 2193, but
/// for their first day, which has no day before it there.
#[test]
fn every_date_slides_by_0_to_4_days() {
    let calendar = Calendar::new();
    let mut dates = 0;
    for requested in day_number(FIRST_YEAR, 1, 2)..=day_number(LAST_YEAR, 12, 31) {
        let date = civil(requested);
        let (kept_due, days_slid) = calendar.kept_due(requested);
        assert!(calendar.is_business_day(kept_due), "{date:?}");
        assert_eq!(kept_due, requested + days_slid, "{date:?}");
        assert!((0..=4).contains(&days_slid), "{date:?}");
        let is_open = calendar.is_business_day(requested);
        assert_eq!(days_slid == 0, is_open, "{date:?}");
        dates += 1;
    }
    assert_eq!(dates, 67_569);
}

/// On each Good Friday, on Christmas where it is a Thursday, on the Saturday before it where it
/// is a Monday, and on no other date.
#[test]
fn dates_that_slide_by_4_days() {
    let calendar = Calendar::new();
    for year in FIRST_YEAR..=LAST_YEAR {
        let christmas = day_number(year, 12, 25);
        let mut expected = vec![computus(year) - 2];
        match christmas % 7 {
            MONDAY => expected.push(christmas - 2),
            THURSDAY => expected.push(christmas),
            _ => {}
        }
        let dates = day_number(year, 1, 2)..=day_number(year, 12, 31);
        let slid_by_4: Vec<Day> = dates
            .filter(|&requested| calendar.kept_due(requested).1 == 4)
            .collect();
        assert_eq!(slid_by_4, expected, "{year}");
    }
}

#[test]
fn an_accepted_collect_hands_on_its_days_slid() {
    let events = [
        [1, 20240325, 0, 1, 1, 0, 0, 0, 0],
        [2, 20240325, 7, 1, 5, 2, 0, 20240325, 0],
        [5, 20240325, 7, 70, 0, 0, 10000, 20240328, 0],
        [5, 20240325, 7, 71, 0, 0, 10000, 20240401, 1],
        [5, 20240325, 7, 72, 0, 0, 10000, 20240331, 1],
        [5, 20240325, 7, 73, 0, 0, 10000, 20240330, 1],
        [5, 20240325, 7, 74, 0, 0, 10000, 20240329, 2],
    ];
    assert_eq!(handed_on(&events), [0, 0, 0, 1, 2, 3, 4].map(Ok));
}

/// Each collect asks for Good Friday; what refuses it comes before and after its kept due.
#[test]
fn a_refused_collect_hands_on_no_days() {
    let events = [
        [1, 20240301, 0, 1, 1, 0, 0, 0, 0],
        [2, 20240301, 7, 1, 5, 2, 0, 20210401, 0],
        [5, 20240314, 7, 70, 0, 0, 10000, 20240329, 0],
        [5, 20240315, 7, 70, 0, 0, 10000, 20240329, 0],
        [2, 20240315, 8, 1, 5, 2, 0, 20240315, 0],
        [5, 20240315, 8, 70, 0, 0, 10000, 20240329, 1],
        [5, 20240315, 8, 70, 0, 0, 0, 20240329, 0],
        [5, 20240315, 9, 70, 0, 0, 10000, 20240329, 0],
        [5, 20240315, 8, 70, 0, 0, 10000, 20240329, 0],
        [5, 20240315, 8, 70, 0, 0, 10000, 20240329, 1],
    ];
    let expected = [
        Ok(0),
        Ok(0),
        Err(13),
        Err(14),
        Ok(0),
        Err(12),
        Err(5),
        Err(9),
        Ok(4),
        Err(8),
    ];
    assert_eq!(handed_on(&events), expected);
}

#[test]
fn other_events_hand_on_0_days() {
    let events = [
        [1, 20240325, 0, 1, 1, 0, 0, 0, 0],
        [2, 20240325, 7, 1, 5, 2, 0, 20240325, 0],
        [3, 20240325, 7, 0, 0, 3, 0, 0, 0],
        [3, 20240325, 7, 1, 0, 0, 0, 0, 1],
        [5, 20240325, 7, 70, 0, 0, 10000, 20240329, 0],
        [5, 20240325, 7, 71, 0, 0, 10000, 20240329, 1],
        [5, 20240325, 7, 72, 0, 0, 10000, 20240329, 1],
        [5, 20240325, 7, 73, 0, 0, 10000, 20240329, 1],
        [4, 20240329, 7, 0, 0, 0, 0, 0, 0],
        [7, 20240329, 0, 70, 0, 0, 0, 0, 0],
        [6, 20240402, 0, 71, 0, 0, 0, 0, 0],
        [6, 20240402, 0, 72, 0, 0, 0, 0, 0],
        [6, 20240402, 0, 73, 0, 0, 0, 0, 0],
        [8, 20240403, 0, 71, 0, 0, 0, 0, 0],
        [9, 20240403, 0, 72, 360, 0, 0, 0, 1],
        [10, 20240403, 0, 73, 0, 0, 0, 0, 0],
    ];
    let expected = [0, 0, 0, 0, 4, 4, 4, 4, 0, 0, 0, 0, 0, 0, 0, 0];
    assert_eq!(handed_on(&events), expected.map(Ok));
}

#[test]
fn month_ends() {
    assert_eq!(lapse_limit(day(20240229)), day(20270228));
    assert_eq!(lapse_limit(day(20210228)), day(20240228));
    assert_eq!(lapse_limit(day(20970228)), day(21000228));
    assert_eq!(months_after(day(20241231), 13), day(20260131));
    assert!(day_in_range(21000229).is_none());
}

/// 0.5, 1.5, 2.5 and 3.5 cents.
#[test]
fn half_a_cent_goes_up_before_2026() {
    for date in [20240403, 20251230, 20251231] {
        let halves = [1, 3, 5, 7].map(|days| cents(date, 5000, 360, days));
        assert_eq!(halves, [1, 2, 3, 4], "{date}");
    }
}

#[test]
fn half_a_cent_goes_to_the_even_one_from_2026() {
    for date in [20260101, 20260102, 20270104] {
        let halves = [1, 3, 5, 7].map(|days| cents(date, 5000, 360, days));
        assert_eq!(halves, [0, 2, 2, 4], "{date}");
    }
}

#[test]
fn next_to_half_a_cent() {
    for date in [20251231, 20260101, 20260102] {
        let whole_below = [4999, 14_999, 24_999].map(|amount| cents(date, amount, 360, 1));
        assert_eq!(whole_below, [0, 1, 2], "{date}");
        let whole_above = [5001, 15_001, 25_001].map(|amount| cents(date, amount, 360, 1));
        assert_eq!(whole_above, [1, 2, 3], "{date}");
        // One part of a cent below and above.
        let below = [1_799_999, 5_399_999, 8_999_999].map(|amount| cents(date, amount, 1, 1));
        assert_eq!(below, [0, 1, 2], "{date}");
        let above = [1_800_001, 5_400_001, 9_000_001].map(|amount| cents(date, amount, 1, 1));
        assert_eq!(above, [1, 2, 3], "{date}");
    }
}

#[test]
fn largest_compensation() {
    for date in [20251231, 20260102] {
        assert_eq!(cents(date, 99_999_999_999, 9_999, 438), 121_654_499_999);
        assert_eq!(cents(date, 99_999_900_411, 9_999, 438), 121_654_378_845);
        assert_eq!(cents(date, 99_999_899_589, 9_999, 438), 121_654_377_846);
    }
    // Halves above the odd and the even whole cent.
    assert_eq!(cents(20251231, 99_999_900_000, 9_999, 438), 121_654_378_346);
    assert_eq!(cents(20251231, 99_999_700_000, 9_999, 438), 121_654_135_037);
    assert_eq!(cents(20260102, 99_999_900_000, 9_999, 438), 121_654_378_346);
    assert_eq!(cents(20260102, 99_999_700_000, 9_999, 438), 121_654_135_036);
}

/// Two collections settled on one day of 2025 come to half a cent each.
#[test]
fn each_refund_by_its_own_date() {
    let events = [
        [1, 20251215, 0, 1, 1, 0, 0, 0, 0],
        [2, 20251215, 7, 1, 5, 2, 0, 20251215, 0],
        [5, 20251215, 7, 70, 0, 0, 5000, 20251229, 0],
        [5, 20251215, 7, 71, 0, 0, 5000, 20251229, 1],
        [6, 20251229, 0, 70, 0, 0, 0, 0, 0],
        [6, 20251229, 0, 71, 0, 0, 0, 0, 0],
        [9, 20251230, 0, 70, 360, 0, 0, 0, 0],
        [9, 20260101, 0, 71, 120, 0, 0, 0, 0],
        [9, 20260102, 0, 71, 90, 0, 0, 0, 0],
    ];
    assert_eq!(answers(&events), [0, 0, 0, 0, 0, 0, 0, 7, 0]);
    let text: String = events.iter().map(|event| line(event) + "\n").collect();
    let positions = " 1     1                -1
 3     1                -1
 3     2                 1
 4     0                 1
";
    assert!(output(text.as_bytes()).ends_with(positions));
}

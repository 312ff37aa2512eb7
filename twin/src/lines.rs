//! Event lines, sound and broken.

use crate::books::Fields;
use crate::random::Random;

/// The columns after the last one of each field.
const RIGHT_EDGES: [usize; 9] = [2, 11, 21, 31, 41, 51, 63, 72, 74];

pub fn write_line(event: &Fields) -> Vec<u8> {
    let [kind, date, mandate, a, b, c, amount, second, code] = event;
    let line =
        format!("{kind:2}{date:9}{mandate:10}{a:10}{b:10}{c:10}{amount:12}{second:9}{code:2}\n");
    line.into_bytes()
}

/// Breaks a sound line in one of many ways. Most are refused 1; a few are
/// sound again and mean something else. With one line left none is added.
pub fn break_line(mut line: Vec<u8>, lines_left: usize, random: &mut Random) -> Vec<u8> {
    let end = line.len() - 1;
    let place = random.below(end as u64) as usize;
    let right = random.pick(&RIGHT_EDGES) - 1;
    match random.below(22) {
        0 => line.clear(),
        1 => line.truncate(place),
        2 => {
            line.remove(place);
        }
        3 => line.insert(place, b' '),
        4 => line.insert(end, b' '),
        5 => line.insert(end, b'0'),
        6 => line.insert(end, b'\r'),
        7 => line[place] = b'\t',
        8 => line[place] = random.pick(b"aOl.,_"),
        9 => line[place] = 0,
        10 => line[place] = 255,
        11 => line[place] = random.below(256) as u8,
        12 => line[right] = b' ',
        13 => line[right] = random.pick(b"/:"),
        14 => put_before_digits(&mut line, right, b'0'),
        15 => put_before_digits(&mut line, right, random.pick(b"+-")),
        16 => put_before_digits(&mut line, right, b'\t'),
        17 => line[72..74].copy_from_slice(b"00"),
        18 => line[2..11].copy_from_slice(random.pick(&[b"120240325", b"999999999", b"020240325"])),
        19 => {
            let length = match random.below(1_000) {
                0 => 70_000,
                _ => random.pick(&[75, 76, 149, 150, 151, 500]),
            };
            let filling = random.pick(b" 07");
            line.splice(end..end, vec![filling; length]);
        }
        20 => line[end - 1] = 10,
        _ => line[random.pick(&[4, 5, 7, 9])] = b' ',
    }
    if line.last() != Some(&b'\n') {
        line.push(b'\n');
    }
    if lines_left == 1 {
        let last = line.len() - 1;
        line[..last].iter_mut().for_each(|byte| {
            if *byte == b'\n' {
                *byte = b' ';
            }
        });
    }
    line
}

/// Puts the byte in place of the blank before the digits that end at `right`.
fn put_before_digits(line: &mut [u8], right: usize, byte: u8) {
    if let Some(blank) = line[..=right].iter().rposition(|&byte| byte == b' ') {
        line[blank] = byte;
    }
}

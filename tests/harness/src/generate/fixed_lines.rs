//! Faults of fixed lines: in their form, in their order, in their numbers.

use crate::random::Random;

/// What does not fit into 32 or 64 bits, or becomes a small number when it is cut to them.
const HUGE: [u128; 5] = [
    (1 << 32) - 1,
    1 << 32,
    (1 << 32) + 1,
    (1 << 64) - 1,
    1 << 64,
];

/// A text in lines, and what fixed lines are judged by.
struct Text {
    lines: Vec<Vec<u8>>,
    pieces: u64,
    masks: u64,
}

/// Puts a fault into the fixed lines of a text, or a line that may be one beside them.
pub fn change_fixed(random: &mut Random, text: &mut Vec<u8>) {
    let mut parts = parts(text);
    let fixed = parts.fixed();
    match random.below(6) {
        0 | 1 => insert(random, &mut parts),
        _ if fixed.is_empty() => insert(random, &mut parts),
        2 => {
            let line = parts.lines[random.pick(&fixed)].clone();
            parts.lines.insert(random.pick(&fixed) + 1, line);
        }
        3 => parts.lines.swap(random.pick(&fixed), random.pick(&fixed)),
        4 => {
            let at = random.pick(&fixed);
            parts.lines[at] = parts.any_line(random);
        }
        _ => {
            let at = random.pick(&fixed);
            parts.lines[at] = out_of_form(random, &parts.lines[at]);
        }
    }
    *text = parts.lines.concat();
}

fn parts(text: &[u8]) -> Text {
    let lines: Vec<Vec<u8>> = (text.split_inclusive(|&byte| byte == b'\n'))
        .map(<[u8]>::to_vec)
        .collect();
    let pieces = lines.iter().filter(|line| line.starts_with(b"piece="));
    let pieces = pieces.count() as u64;
    let digit = text.get(6).filter(|byte| byte.is_ascii_digit());
    let masks = digit.map_or(2, |digit| u64::from(digit - b'0'));
    Text {
        lines,
        pieces,
        masks,
    }
}

impl Text {
    /// Where fixed lines are.
    fn fixed(&self) -> Vec<usize> {
        let fixed = |&at: &usize| self.lines[at].starts_with(b"fixed=");
        (0..self.lines.len()).filter(fixed).collect()
    }

    /// A line in form. Its numbers are in range or just not, or huge.
    fn any_line(&self, random: &mut Random) -> Vec<u8> {
        let [piece, mask] = [(self.pieces, 511), (self.masks, 255)].map(|(count, telling)| {
            let last = count.saturating_sub(1);
            let below = random.below(count.max(1));
            let telling = random.pick(&[telling - 1, telling, telling + 1]);
            let near = random.pick(&[0, last, last, count, count + 1, telling]);
            match random.below(8) {
                0..=3 => u128::from(below),
                4..=6 => u128::from(near),
                _ => random.pick(&HUGE),
            }
        });
        format!("fixed={piece},{mask}\n").into_bytes()
    }
}

/// A further line, mostly at the end.
fn insert(random: &mut Random, text: &mut Text) {
    let end = text.lines.len();
    let anywhere = random.index(end + 1);
    let at = random.pick(&[end, end, end, anywhere]);
    let line = text.any_line(random);
    text.lines.insert(at, line);
}

/// The line in a form that is near the right one.
fn out_of_form(random: &mut Random, line: &[u8]) -> Vec<u8> {
    let line = String::from_utf8_lossy(line).into_owned();
    let numbers = line.trim_end().trim_start_matches("fixed=");
    let (piece, mask) = numbers.split_once(',').unwrap_or((numbers, "0"));
    let other = match random.below(16) {
        0 => format!("fixed={piece}\n"),
        1 => format!("fixed={piece},\n"),
        2 => format!("fixed=,{mask}\n"),
        3 => format!("fixed={piece},{mask},{mask}\n"),
        4 => format!("fixed=0{piece},{mask}\n"),
        5 => format!("fixed={piece},0{mask}\n"),
        6 => format!("fixed={piece};{mask}\n"),
        7 => format!("fixed={piece}, {mask}\n"),
        8 => format!("fixed=-{piece},{mask}\n"),
        9 => format!("fixed={piece},+{mask}\n"),
        10 => format!("Fixed={piece},{mask}\n"),
        11 => format!("fix={piece},{mask}\n"),
        12 => format!("fixed {piece},{mask}\n"),
        13 => format!("fixed={piece},{mask}\r\n"),
        14 => format!("fixed={piece},{mask}"),
        _ => format!("piece={piece},{mask}\n"),
    };
    other.into_bytes()
}

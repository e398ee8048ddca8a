//! The data of PROPVALUE: shape numbers in good form and in bad.

use crate::random::Random;

/// Digits, and a zero byte where their count is odd.
pub fn digits(number: u64) -> Vec<u8> {
    filled(&number.to_string())
}

fn filled(digits: &str) -> Vec<u8> {
    let mut value = digits.as_bytes().to_vec();
    if value.len() % 2 == 1 {
        value.push(0);
    }
    value
}

/// Numbers at the end of the range and of words.
const TELLING: [u128; 14] = [
    0,
    9,
    10,
    511,
    512,
    1 << 16,
    (1 << 16) + 3,
    1_000_000,
    (1 << 32) - 1,
    1 << 32,
    (1 << 32) + 511,
    (1 << 64) - 1,
    1 << 64,
    (1 << 64) + 7,
];

/// Bytes in bad form, but for the last three.
const FORMS: [&[u8]; 24] = [
    b"",
    b"\0\0",
    b"\0",
    b"0",
    b"1\0\0\0",
    b"12\0\0",
    b"\x001",
    b"\x0012\0",
    b"1\x002\0",
    b"1\x0023",
    b"123\0\0\0",
    b"00",
    b"01",
    b"010\0",
    b"0\0\0\0",
    b"+1",
    b"-1",
    b" 1",
    b"1 ",
    b"1\n",
    b"1:",
    b"0\0",
    b"7\0",
    b"511\0",
];

/// Every form, every telling number, and numbers of very many digits.
pub fn telling() -> Vec<Vec<u8>> {
    let mut values: Vec<Vec<u8>> = FORMS.iter().map(|form| form.to_vec()).collect();
    for number in TELLING {
        let number = number.to_string();
        values.push(filled(&number));
        values.push(filled(&format!("0{number}")));
        values.push([filled(&number), vec![0, 0]].concat());
    }
    for count in [19, 20, 21, 40, 1_000, 1_001, 40_000] {
        values.push(filled(&"9".repeat(count)));
        values.push(filled(&format!("1{}", "0".repeat(count))));
    }
    values
}

/// Another value for a shape number.
pub fn other(random: &mut Random, old: &[u8]) -> Vec<u8> {
    let text: String = old.iter().map(|&byte| byte as char).collect();
    let number: u128 = text.trim_end_matches('\0').parse().unwrap_or(0);
    let wrapped = |random: &mut Random, bits: u32| {
        let times = u128::from(random.between(1, 9));
        filled(&(number + (times << bits)).to_string())
    };
    match random.below(8) {
        0 => random.pick(&FORMS).to_vec(),
        1 => filled(&random.pick(&TELLING).to_string()),
        2 => filled(&format!("0{number}")),
        3 => wrapped(random, 32),
        4 => wrapped(random, 64),
        5 => [old, &[0, 0]].concat(),
        6 => filled(&number.to_string().repeat(random.between(2, 60) as usize)),
        _ => filled(&(number + 512).to_string()),
    }
}

//! One call compared with the reference: the number returned and every byte of memory.

use crate::guarded::Guarded;
use crate::input::{shown, Input};
use crate::reference::{Answer, Mutation};
use crate::subject::{number_of, Subject};

/// The input of one call.
#[derive(Clone)]
pub struct Case {
    pub input: Input<Vec<u8>>,
    pub result_size: usize,
    /// Chooses the bytes that are in and around the buffers before the call.
    pub salt: u64,
}

/// The memory that a call is lent.
#[derive(Clone)]
struct Memory {
    input: Input<Guarded>,
    result: Guarded,
}

/// What a call returns, and the memory after it.
struct Outcome {
    returned: u64,
    memory: Memory,
}

/// The reference's answer, or what is different about the subject's.
pub fn compare(subject: Subject, case: &Case) -> Result<Answer, String> {
    let answer = case
        .input
        .as_bytes()
        .answer(case.result_size, Mutation::None);
    let before = Memory {
        input: lent(&case.input, case.salt),
        result: Guarded::filled(case.result_size, case.salt / 3),
    };
    let expected = demanded(before.clone(), &answer);
    let observed = observe(before, subject);
    match faults(&expected, &observed) {
        None => Ok(answer),
        Some(faults) => Err(format!(
            "{faults}\nexpected: {}found: {}",
            expected.shown(),
            observed.shown()
        )),
    }
}

fn lent(input: &Input<Vec<u8>>, salt: u64) -> Input<Guarded> {
    match input {
        Input::Layer(text) => Input::Layer(Guarded::new(text, salt)),
        Input::Stream { settings, stream } => Input::Stream {
            settings: Guarded::new(settings, salt / 5),
            stream: Guarded::new(stream, salt),
        },
    }
}

fn observe(mut memory: Memory, subject: Subject) -> Outcome {
    let returned = subject.call(&mut memory.input, &mut memory.result);
    Outcome { returned, memory }
}

/// What the rules want of a call with this answer.
fn demanded(mut memory: Memory, answer: &Answer) -> Outcome {
    let returned = match answer {
        Ok(text) => {
            memory.result.inside_mut()[..text.len()].copy_from_slice(text);
            text.len() as u64
        }
        Err(refusal) => number_of(*refusal),
    };
    Outcome { returned, memory }
}

fn faults(expected: &Outcome, observed: &Outcome) -> Option<String> {
    let mut faults = Vec::new();
    if observed.returned != expected.returned {
        faults.push(String::from("another number is returned"));
    }
    let (right, found) = (&expected.memory, &observed.memory);
    if let Some(at) = found.result.first_difference(&right.result) {
        faults.push(format!("the result buffer differs from byte {at} on"));
    }
    for ((name, right), (_, found)) in right.input.parts().iter().zip(found.input.parts()) {
        if let Some(at) = found.first_difference(right) {
            faults.push(format!("the {name} was changed from byte {at} on"));
        }
    }
    (!faults.is_empty()).then(|| faults.join("; "))
}

impl Outcome {
    /// The number and, if it is a length, the text.
    fn shown(&self) -> String {
        let text = match self.memory.result.inside().get(..self.returned as usize) {
            Some(text) if self.returned < 10_000 => shown(text),
            _ => String::new(),
        };
        format!("{}\n{text}", self.returned)
    }
}

/// The number after a key of a result text.
pub fn field(text: &[u8], key: &str) -> Option<u64> {
    let text = std::str::from_utf8(text).ok()?;
    let value = text.lines().find_map(|line| line.strip_prefix(key))?;
    value.parse().ok()
}

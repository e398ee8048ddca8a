//! What a call is given besides the buffer for its result: bytes, or memory that holds them.

use crate::layer::Layer;
use crate::reference::{self, Answer, Mutation, Refusal};
use crate::stream::split;

#[derive(Clone)]
pub enum Input<T> {
    /// A layer text.
    Layer(T),
    /// A settings text and a stream.
    Stream { settings: T, stream: T },
}

impl<T> Input<T> {
    /// The parts with their names.
    pub fn parts(&self) -> Vec<(&'static str, &T)> {
        match self {
            Input::Layer(text) => vec![("layer text", text)],
            Input::Stream { settings, stream } => {
                vec![("settings text", settings), ("stream", stream)]
            }
        }
    }
}

impl Input<&[u8]> {
    /// What the reference answers, with a fault put in or none.
    pub fn answer(&self, result_size: usize, wrong: Mutation) -> Answer {
        match self {
            Input::Layer(text) => reference::answer(text, result_size, wrong),
            Input::Stream { settings, stream } => {
                reference::answer_stream(settings, stream, result_size, wrong)
            }
        }
    }

    /// The layer that it states.
    pub fn layer(&self) -> Result<Layer, Refusal> {
        match self {
            Input::Layer(text) => reference::read(text, Mutation::None),
            Input::Stream { settings, stream } => {
                reference::read_stream(settings, stream, Mutation::None)
            }
        }
    }
}

impl Input<Vec<u8>> {
    pub fn as_bytes(&self) -> Input<&[u8]> {
        match self {
            Input::Layer(text) => Input::Layer(text),
            Input::Stream { settings, stream } => Input::Stream { settings, stream },
        }
    }

    /// How much there is of it.
    pub fn size(&self) -> String {
        match self {
            Input::Layer(text) => format!("{} lines, {} bytes", lines(text), text.len()),
            Input::Stream { settings, stream } => format!(
                "{} lines and {} records, {} bytes",
                lines(settings),
                split(stream).len(),
                settings.len() + stream.len()
            ),
        }
    }

    /// All of it for people.
    pub fn shown(&self) -> String {
        match self {
            Input::Layer(text) => format!("the layer text:\n{}", shown(text)),
            Input::Stream { settings, stream } => format!(
                "the settings text:\n{}\nthe stream, {} bytes:\n{}",
                shown(settings),
                stream.len(),
                shown_stream(stream)
            ),
        }
    }
}

fn lines(text: &[u8]) -> usize {
    text.split_inclusive(|&byte| byte == b'\n').count()
}

/// Bytes for people: what is not plain text is escaped, and a long text is cut.
pub fn shown(text: &[u8]) -> String {
    let cut = &text[..text.len().min(6_000)];
    let rest = match text.len() - cut.len() {
        0 => String::new(),
        rest => format!("\n(and {rest} bytes more)\n"),
    };
    cut.escape_ascii().to_string().replace("\\n", "\n") + &rest
}

/// A line of hexadecimal numbers for each record: length, type and data type, data.
fn shown_stream(stream: &[u8]) -> String {
    let records = split(stream);
    let mut lines: Vec<String> = records.iter().take(100).map(|r| shown_record(r)).collect();
    if records.len() > lines.len() {
        lines.push(format!(
            "(and {} records more)",
            records.len() - lines.len()
        ));
    }
    lines.concat()
}

fn shown_record(record: &[u8]) -> String {
    let hex = |bytes: &[u8]| -> String { bytes.iter().map(|byte| format!("{byte:02x}")).collect() };
    let cut = &record[..record.len().min(200)];
    let parts: Vec<String> = match cut {
        [a, b, c, d, data @ ..] => [&[*a, *b], &[*c, *d], data].map(hex).to_vec(),
        few => vec![hex(few)],
    };
    let rest = match record.len() - cut.len() {
        0 => String::new(),
        rest => format!(" (and {rest} bytes more)"),
    };
    format!("{}{rest}\n", parts.join(" "))
}

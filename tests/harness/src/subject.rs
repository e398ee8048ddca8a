//! What is compared with the reference: the library, or the reference with a fault put in.

use crate::guarded::Guarded;
use crate::input::Input;
use crate::reference::{Mutation, Refusal};

#[derive(Clone, Copy)]
pub enum Subject {
    Library,
    Wrong(Mutation),
}

impl Subject {
    /// One call of the job loader.
    pub fn call(self, input: &mut Input<Guarded>, result: &mut Guarded) -> u64 {
        match self {
            Subject::Library => library(input, result),
            Subject::Wrong(mutation) => imitation(input, result, mutation),
        }
    }
}

extern "C" {
    fn hezgolt_decompose(
        layer: *const u8,
        layer_size: u64,
        result: *mut u8,
        result_size: u64,
    ) -> u64;

    fn hezgolt_decompose_stream(
        settings: *const u8,
        settings_size: u64,
        stream: *const u8,
        stream_size: u64,
        result: *mut u8,
        result_size: u64,
    ) -> u64;
}

fn library(input: &mut Input<Guarded>, result: &mut Guarded) -> u64 {
    let (result, result_size) = result.lent();
    match input {
        Input::Layer(text) => {
            let (layer, size) = text.lent();
            // SAFETY: each pointer has that many bytes behind it, in vectors of their own that
            // nothing else touches during the call. All were made from the whole of their
            // vectors, so that a write into the guards, or into the layer, is seen and harms
            // nothing.
            unsafe { hezgolt_decompose(layer, size, result, result_size) }
        }
        Input::Stream { settings, stream } => {
            let (settings, size) = settings.lent();
            let (stream, stream_size) = stream.lent();
            // SAFETY: as above.
            unsafe {
                hezgolt_decompose_stream(settings, size, stream, stream_size, result, result_size)
            }
        }
    }
}

/// The reference behind the same call.
fn imitation(input: &mut Input<Guarded>, result: &mut Guarded, wrong: Mutation) -> u64 {
    let answer = inside(input).answer(result.size(), wrong);
    match input {
        Input::Layer(text) if wrong == Mutation::LayerChanged => change(text),
        Input::Stream { settings, .. } if wrong == Mutation::SettingsChanged => change(settings),
        Input::Stream { stream, .. } if wrong == Mutation::StreamChanged => change(stream),
        _ => {}
    }
    if wrong == Mutation::WriteBeforeBuffer {
        let (bytes, start) = result.all();
        bytes[start - 1] ^= 1;
    }
    let streams = matches!(input, Input::Stream { .. });
    let buffer = result.inside_mut();
    match answer {
        Ok(text) => {
            buffer[..text.len()].copy_from_slice(&text);
            let ended = streams && wrong == Mutation::StreamResultEnded;
            if ended || wrong == Mutation::ZeroAfterResult {
                buffer[text.len()] = 0;
            }
            text.len() as u64
        }
        Err(refusal) => {
            let cleared = streams && wrong == Mutation::StreamRefusalCleared;
            if cleared || wrong == Mutation::ClearedOnRefusal {
                buffer.fill(0);
            }
            number_of(refusal)
        }
    }
}

fn inside(input: &Input<Guarded>) -> Input<&[u8]> {
    match input {
        Input::Layer(text) => Input::Layer(text.inside()),
        Input::Stream { settings, stream } => Input::Stream {
            settings: settings.inside(),
            stream: stream.inside(),
        },
    }
}

/// Another first byte, if there is one.
fn change(lent: &mut Guarded) {
    let first = lent.inside_mut().iter_mut().take(1);
    first.for_each(|byte| *byte ^= 0x20);
}

/// What the call returns for a refusal (RULES 12).
pub fn number_of(refusal: Refusal) -> u64 {
    10_000 * refusal.number + refusal.place
}

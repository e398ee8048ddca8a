//! Stored layers and streams through the library and the reference, scores through the program and it.

use std::ffi::OsStr;
use std::fs;
use std::path::{Path, PathBuf};

use crate::compare::{compare, Case};
use crate::input::{shown, Input};
use crate::reference::{self, printed, Mutation};
use crate::scoring::{self, Given, Program, Scorer};
use crate::subject::Subject;

/// What is compared with the stored results, and with the reference.
#[derive(Clone, Copy)]
enum Compared {
    /// The library and the program.
    Built,
    /// The reference alone.
    #[cfg(test)]
    Reference,
}

impl Compared {
    fn subject(self) -> Subject {
        match self {
            Compared::Built => Subject::Library,
            #[cfg(test)]
            Compared::Reference => Subject::Wrong(Mutation::None),
        }
    }

    fn scorer(self) -> Result<Scorer, String> {
        match self {
            Compared::Built => Ok(Scorer::Program(Program::new()?)),
            #[cfg(test)]
            Compared::Reference => Ok(Scorer::Wrong(Mutation::None)),
        }
    }
}

/// How many results and scores of the first folder agree, or what is different about one that
/// does not. Their layers are in any of the folders; a stream and its settings stand beside the
/// result.
pub fn vectors(folders: &[&Path]) -> Result<String, String> {
    agreeing(folders, Compared::Built)
}

fn agreeing(folders: &[&Path], compared: Compared) -> Result<String, String> {
    let (mut results, mut streams, mut scores) = (0, 0, 0);
    for stored in files(folders[0])? {
        let expected = read(&stored)?;
        match stored.extension().and_then(OsStr::to_str) {
            Some("result") if stored.with_extension("gds").exists() => {
                check_stream(compared, &stored, &expected)?;
                streams += 1;
            }
            Some("result") => {
                check_result(compared, &layer_of(&stored, folders)?, &expected)?;
                results += 1;
            }
            Some("score") => {
                check_score(compared, &layer_of(&stored, folders)?, &expected)?;
                scores += 1;
            }
            _ => {}
        }
    }
    match results + streams + scores {
        0 => Err(String::from("no results and no scores are stored there")),
        _ => Ok(format!(
            "results of {results} layers and {streams} streams, and {scores} scores agree"
        )),
    }
}

fn files(folder: &Path) -> Result<Vec<PathBuf>, String> {
    let failed = |error| format!("{}: {error}", folder.display());
    let mut files = Vec::new();
    for entry in fs::read_dir(folder).map_err(failed)? {
        files.push(entry.map_err(failed)?.path());
    }
    files.sort();
    Ok(files)
}

fn layer_of(stored: &Path, folders: &[&Path]) -> Result<PathBuf, String> {
    let name = stored.with_extension("layer");
    let name = name.file_name().unwrap_or_default();
    let mut places = folders.iter().map(|folder| folder.join(name));
    let found = places.find(|path| path.exists());
    found.ok_or_else(|| format!("{} has no layer", stored.display()))
}

fn read(path: &Path) -> Result<Vec<u8>, String> {
    fs::read(path).map_err(|error| format!("{}: {error}", path.display()))
}

fn check_result(compared: Compared, layer: &Path, expected: &[u8]) -> Result<(), String> {
    check(compared, layer, Input::Layer(read(layer)?), expected)
}

fn check_stream(compared: Compared, stored: &Path, expected: &[u8]) -> Result<(), String> {
    let input = Input::Stream {
        settings: read(&stored.with_extension("settings"))?,
        stream: read(&stored.with_extension("gds"))?,
    };
    check(compared, stored, input, expected)
}

fn check(
    compared: Compared,
    path: &Path,
    input: Input<Vec<u8>>,
    expected: &[u8],
) -> Result<(), String> {
    let case = Case {
        input,
        result_size: 4096,
        salt: 0,
    };
    let answer = compare(compared.subject(), &case)
        .map_err(|fault| format!("{}: library and reference: {fault}", path.display()))?;
    same(path, &printed(&answer), expected)
}

fn check_score(compared: Compared, layer: &Path, expected: &[u8]) -> Result<(), String> {
    let masks = layer.with_extension("masks");
    let given = Given {
        layer: read(layer)?,
        masks: read(&masks)?,
    };
    if reference::read_masks(&given.masks, Mutation::None).is_none() {
        return Err(format!("{}: not only mask lines", masks.display()));
    }
    let answer = scoring::compare(&compared.scorer()?, &given)
        .map_err(|fault| format!("{}: program and reference: {fault}", layer.display()))?;
    same(layer, &printed(&answer), expected)
}

fn same(layer: &Path, found: &[u8], expected: &[u8]) -> Result<(), String> {
    if found == expected {
        return Ok(());
    }
    Err(format!(
        "{}: stored:\n{}computed:\n{}",
        layer.display(),
        shown(expected),
        shown(found)
    ))
}

#[cfg(test)]
mod tests {
    use super::*;

    #[test]
    fn the_reference_gives_what_is_stored() {
        for folder in ["../vectors", "../streams", "../scores"] {
            let folder = Path::new(env!("CARGO_MANIFEST_DIR")).join(folder);
            let said = agreeing(&[&folder], Compared::Reference);
            assert!(said.is_ok(), "{}", said.unwrap_err());
        }
    }

    #[test]
    fn another_result_is_noticed() {
        let right = same(Path::new("layer"), b"steps=5\n", b"steps=5\n");
        let wrong = same(Path::new("layer"), b"steps=5\n", b"steps=4\n");
        assert!(right.is_ok() && wrong.is_err());
    }
}

//! The program `score` as a process, with its two files in a folder of their own.

use std::env;
use std::fs;
use std::path::{Path, PathBuf};
use std::process::{self, Command, Stdio};

use super::Given;

/// Where the program is, unless HEZGOLT_SCORE names another place.
const BUILT: &str = concat!(env!("CARGO_MANIFEST_DIR"), "/../../target/bin/score");

/// Where folders are in memory, on systems that have it.
const IN_MEMORY: &str = "/dev/shm";

pub struct Program {
    path: PathBuf,
    folder: PathBuf,
    layer: PathBuf,
    masks: PathBuf,
}

impl Program {
    pub fn new() -> Result<Program, String> {
        let path = env::var_os("HEZGOLT_SCORE").map_or_else(|| PathBuf::from(BUILT), PathBuf::from);
        if !path.is_file() {
            return Err(format!("there is no program {}", path.display()));
        }
        let folder = new_folder()?;
        Ok(Program {
            path,
            layer: folder.join("layer"),
            masks: folder.join("masks"),
            folder,
        })
    }

    /// What it prints. It must end well and say nothing on standard error.
    pub fn printed(&self, given: &Given) -> Result<Vec<u8>, String> {
        write(&self.layer, &given.layer)?;
        write(&self.masks, &given.masks)?;
        let output = Command::new(&self.path)
            .args([&self.layer, &self.masks])
            .stdin(Stdio::null())
            .output()
            .map_err(|error| told(&self.path, error))?;
        if output.status.success() && output.stderr.is_empty() {
            return Ok(output.stdout);
        }
        Err(format!(
            "the program ended with {} and said: {}",
            output.status,
            String::from_utf8_lossy(&output.stderr)
        ))
    }
}

impl Drop for Program {
    fn drop(&mut self) {
        // What cannot be removed does no harm.
        let _ = fs::remove_dir_all(&self.folder);
    }
}

/// A folder that nobody else has, in memory if it can be.
fn new_folder() -> Result<PathBuf, String> {
    let places = [PathBuf::from(IN_MEMORY), env::temp_dir()];
    let name = |number: u64| format!("hezgolt-score-{}-{number}", process::id());
    let mut folders = (places.iter()).flat_map(|place| (0..10).map(move |n| place.join(name(n))));
    let made = folders.find(|folder| fs::create_dir(folder).is_ok());
    made.ok_or_else(|| String::from("there is no folder for the files of the program"))
}

fn write(path: &Path, bytes: &[u8]) -> Result<(), String> {
    fs::write(path, bytes).map_err(|error| told(path, error))
}

fn told(path: &Path, error: std::io::Error) -> String {
    format!("{}: {error}", path.display())
}

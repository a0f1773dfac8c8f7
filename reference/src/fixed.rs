//! The fixed scripts: inputs with what must be printed for them.

use std::fs;
use std::io;
use std::path::{Path, PathBuf};

use crate::axes::axes_covered;
use crate::coverage::Coverage;
use crate::replay::replay_covered;

#[derive(Clone, Copy, PartialEq, Eq, Debug)]
pub enum Program {
    Replay,
    Axes,
}

impl Program {
    pub const fn name(self) -> &'static str {
        match self {
            Program::Replay => "replay",
            Program::Axes => "axes",
        }
    }

    /// What the reference prints for an input, and what happened on the way.
    pub fn reference(self, input: &[u8]) -> (Vec<u8>, Coverage) {
        match self {
            Program::Replay => replay_covered(input),
            Program::Axes => axes_covered(input),
        }
    }
}

/// One input of a program, and its output.
#[derive(Clone, Debug)]
pub struct Fixed {
    pub name: String,
    pub program: Program,
    pub input: Vec<u8>,
    pub output: Vec<u8>,
}

/// The directory in which they stand.
pub fn directory() -> PathBuf {
    Path::new(env!("CARGO_MANIFEST_DIR")).join("scripts")
}

/// Reads all NAME.replay and NAME.axes of a directory, each with its NAME.out.
pub fn load(directory: &Path) -> Result<Vec<Fixed>, String> {
    let mut paths = entries(directory).map_err(|error| at(directory, &error))?;
    paths.sort();
    let mut scripts = Vec::new();
    for path in paths {
        let program = match path.extension().and_then(|extension| extension.to_str()) {
            Some("replay") => Program::Replay,
            Some("axes") => Program::Axes,
            _ => continue,
        };
        scripts.push(Fixed {
            name: path
                .file_stem()
                .map(|stem| stem.to_string_lossy().into_owned())
                .unwrap_or_default(),
            program,
            input: read(&path)?,
            output: read(&path.with_extension("out"))?,
        });
    }
    if scripts.is_empty() {
        return Err(format!("{}: no fixed scripts", directory.display()));
    }
    Ok(scripts)
}

fn entries(directory: &Path) -> io::Result<Vec<PathBuf>> {
    fs::read_dir(directory)?
        .map(|entry| entry.map(|entry| entry.path()))
        .collect()
}

fn read(path: &Path) -> Result<Vec<u8>, String> {
    fs::read(path).map_err(|error| at(path, &error))
}

fn at(path: &Path, error: &io::Error) -> String {
    format!("{}: {error}", path.display())
}

//! What the repository keeps that is run and read here: the first program's programs,
//! and the samples of their input.

use std::fs;
use std::io::{Error, Result};
use std::path::{Path, PathBuf};

use peer::convert::{Output, Way};

fn repository() -> PathBuf {
    Path::new(env!("CARGO_MANIFEST_DIR")).join("../..")
}

/// A program of the first program, where its build leaves it. That it is not there
/// is an error, so that no run of it is passed over.
fn program(name: &str) -> Result<PathBuf> {
    let path = repository().join("crates").join(name).join("out").join(name);
    fs::canonicalize(&path).map_err(|error| named(&path, error))
}

/// The printing program.
pub fn stand() -> Result<PathBuf> {
    program("stand")
}

/// The converter on either way.
pub fn converter(way: Way) -> Result<PathBuf> {
    program(match way {
        Way::ToNew => "to_new",
        Way::ToOld => "to_old",
    })
}

/// An input of the printing program, and what is printed for it.
pub struct Sample {
    pub path: PathBuf,
    pub input: Vec<u8>,
    pub out: Vec<u8>,
}

fn read(path: &Path) -> Result<Vec<u8>> {
    fs::read(path).map_err(|error| named(path, error))
}

/// The sample of this name.
pub fn sample(name: &str) -> Result<Sample> {
    let path = repository().join("samples").join(name);
    let (input, out) = (
        path.with_extension("txt"),
        read(&path.with_extension("out"))?,
    );
    Ok(Sample {
        input: read(&input)?,
        path: input,
        out,
    })
}

/// Every sample, by name.
pub fn samples() -> Result<Vec<Sample>> {
    let names = ending(&repository().join("samples"), "txt")?;
    let stems = names.iter().filter_map(|path| path.file_stem());
    stems.map(|name| sample(&name.to_string_lossy())).collect()
}

/// A text for one of the converters, and what it puts out.
pub struct Carried {
    pub way: Way,
    pub path: PathBuf,
    pub input: Vec<u8>,
    pub output: Output,
}

/// Every text of samples/old, by name. What comes of NAME.old stands in NAME.new, and
/// the other way round; a text that is refused has a NAME.refused beside it instead.
pub fn old_samples() -> Result<Vec<Carried>> {
    let folder = repository().join("samples/old");
    let mut samples = Vec::new();
    for (way, from, to) in [(Way::ToNew, "old", "new"), (Way::ToOld, "new", "old")] {
        for path in ending(&folder, from)? {
            let refused = path.with_extension("refused");
            let mut output = Output::default();
            match refused.is_file() {
                true => output.refused = read(&refused)?,
                false => output.text = read(&path.with_extension(to))?,
            }
            let input = read(&path)?;
            samples.push(Carried {
                way,
                path,
                input,
                output,
            });
        }
    }
    Ok(samples)
}

/// The files of a folder whose names end so, in their order.
fn ending(folder: &Path, end: &str) -> Result<Vec<PathBuf>> {
    let entries = fs::read_dir(folder).map_err(|error| named(folder, error))?;
    let mut paths = Vec::new();
    for entry in entries {
        let path = entry?.path();
        if path.extension().is_some_and(|found| found == end) {
            paths.push(path);
        }
    }
    paths.sort();
    Ok(paths)
}

fn named(path: &Path, error: Error) -> Error {
    Error::new(error.kind(), format!("{}: {error}", path.display()))
}

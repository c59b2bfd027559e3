//! Writes sheet files and what is owed for them: `data/000.tlg` and on, and `stdout`, in the first folder that is named, and
//! the samples in the second.

use std::fs;
use std::io::Result;
use std::path::{Path, PathBuf};
use std::process::ExitCode;

use oracle::sheets;

fn main() -> ExitCode {
    let folders: Vec<PathBuf> = std::env::args_os().skip(1).map(PathBuf::from).collect();
    let [stored, samples] = &folders[..] else {
        eprintln!("usage: sheets FOLDER SAMPLES");
        return ExitCode::FAILURE;
    };
    match store(stored).and_then(|()| write_samples(samples)) {
        Ok(()) => ExitCode::SUCCESS,
        Err(error) => {
            eprintln!("{}, {}: {error}", stored.display(), samples.display());
            ExitCode::FAILURE
        }
    }
}

fn store(folder: &Path) -> Result<()> {
    let sheets = sheets::all();
    let data = folder.join("data");
    fs::create_dir_all(&data)?;
    for (number, sheet) in sheets.iter().enumerate() {
        fs::write(data.join(sheets::name(number)), &sheet.bytes)?;
    }
    fs::write(folder.join("stdout"), sheets::text(&sheets))
}

fn write_samples(folder: &Path) -> Result<()> {
    fs::create_dir_all(folder)?;
    sheets::samples().into_iter().try_for_each(|(name, bytes)| fs::write(folder.join(name), bytes))
}

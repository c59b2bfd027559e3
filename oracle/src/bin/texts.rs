//! Writes the fixed training texts to FOLDER/data, numbered, and the line that is owed for each to FOLDER/stdout; and what the C
//! program must print for the texts in SAMPLES to EXAMPLES/read_text.txt.

use std::fs;
use std::io::Result;
use std::path::{Path, PathBuf};
use std::process::ExitCode;

use oracle::training_text::{report, stored};

fn main() -> ExitCode {
    let folders: Vec<PathBuf> = std::env::args_os().skip(1).map(PathBuf::from).collect();
    let [stored, samples, examples] = &folders[..] else {
        eprintln!("usage: texts FOLDER SAMPLES EXAMPLES");
        return ExitCode::FAILURE;
    };
    match store(stored).and_then(|()| write_reports(samples, examples)) {
        Ok(()) => ExitCode::SUCCESS,
        Err(error) => {
            eprintln!("{}, {}, {}: {error}", stored.display(), samples.display(), examples.display());
            ExitCode::FAILURE
        }
    }
}

fn store(folder: &Path) -> Result<()> {
    let texts = stored::all();
    let data = folder.join("data");
    fs::create_dir_all(&data)?;
    for (number, stored) in texts.iter().enumerate() {
        fs::write(data.join(stored::name(number)), &stored.text)?;
    }
    let lines: String = texts.iter().map(|stored| stored::line(&stored.text)).collect();
    fs::write(folder.join("stdout"), lines)
}

/// In the order of their names, an empty line behind each.
fn write_reports(samples: &Path, examples: &Path) -> Result<()> {
    let mut names = Vec::new();
    for entry in fs::read_dir(samples)? {
        names.push(entry?.file_name().into_string().expect("plain names"));
    }
    names.retain(|name| name.ends_with(".txt"));
    names.sort();
    let mut reports = String::new();
    for name in names {
        reports += &report::report(&format!("samples/{name}"), &fs::read(samples.join(&name))?);
        reports += "\n";
    }
    fs::create_dir_all(examples)?;
    fs::write(examples.join("read_text.txt"), reports)
}

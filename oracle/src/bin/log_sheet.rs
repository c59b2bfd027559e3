//! Writes what examples/log_sheet.c has to print, as `log_sheet.txt`, in the folder that is named.

use std::path::PathBuf;
use std::process::ExitCode;

use oracle::log_sheet;

fn main() -> ExitCode {
    let Some(folder) = std::env::args_os().nth(1).map(PathBuf::from) else {
        eprintln!("usage: log_sheet FOLDER");
        return ExitCode::FAILURE;
    };
    let written =
        std::fs::create_dir_all(&folder).and_then(|()| std::fs::write(folder.join("log_sheet.txt"), log_sheet::text()));
    match written {
        Ok(()) => ExitCode::SUCCESS,
        Err(error) => {
            eprintln!("{}: {error}", folder.display());
            ExitCode::FAILURE
        }
    }
}

//! Writes the fixed list: the cases as `stdin` and the answers as `stdout`, in the folder that is named.

use std::path::PathBuf;
use std::process::ExitCode;

use oracle::list;

fn main() -> ExitCode {
    let Some(folder) = std::env::args_os().nth(1).map(PathBuf::from) else {
        eprintln!("usage: list FOLDER");
        return ExitCode::FAILURE;
    };
    let cases = list::cases();
    let written = std::fs::create_dir_all(&folder)
        .and_then(|()| std::fs::write(folder.join("stdin"), list::bytes(&cases)))
        .and_then(|()| std::fs::write(folder.join("stdout"), list::text(&cases)));
    match written {
        Ok(()) => ExitCode::SUCCESS,
        Err(error) => {
            eprintln!("{}: {error}", folder.display());
            ExitCode::FAILURE
        }
    }
}

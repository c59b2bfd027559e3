//! The program `decode`, built, on sheets through its standard input: the line that it prints, against the oracle's.
//!
//! BODKINBLOOM_DECODE names the program; else it is build/decode, where `scripts/program` leaves it.

use std::fs::{self, File};
use std::io::{ErrorKind, Write};
use std::os::fd::OwnedFd;
use std::os::unix::net::{UnixDatagram, UnixStream};
use std::path::{Path, PathBuf};
use std::process::{Child, Command, Stdio};

use oracle::cases::Mix;
use oracle::judge;
use oracle::sheets::{self, LONGEST};

/// Sheets up to this length also come byte by byte.
const SHORT: usize = 5_000;

fn program() -> PathBuf {
    let built = || Path::new(env!("CARGO_MANIFEST_DIR")).join("../../build/decode");
    let path = std::env::var_os("BODKINBLOOM_DECODE").map_or_else(built, PathBuf::from);
    assert!(path.is_file(), "{}: no program there; scripts/program builds it", path.display());
    path
}

fn start(command: &mut Command, input: impl Into<Stdio>) -> Child {
    let started = command.stdin(input).stdout(Stdio::piped()).stderr(Stdio::piped()).spawn();
    started.expect("the program starts")
}

/// All that the program writes: it goes to standard output, and the program ends well.
fn written(child: Child) -> String {
    let output = child.wait_with_output().expect("the program ends");
    assert!(output.status.success(), "{}", output.status);
    assert!(output.stderr.is_empty(), "{}", String::from_utf8_lossy(&output.stderr));
    String::from_utf8(output.stdout).expect("text")
}

/// `decode < FILE`
fn from_file(file: &Path) -> String {
    written(start(&mut Command::new(program()), File::open(file).expect("the sheet is there")))
}

/// `cat FILE | decode`
fn through_pipe(bytes: &[u8]) -> String {
    let mut child = start(&mut Command::new(program()), Stdio::piped());
    match child.stdin.take().expect("a pipe").write_all(bytes) {
        Ok(()) => {}
        // reading stops one byte past the longest sheet
        Err(error) if error.kind() == ErrorKind::BrokenPipe && bytes.len() > LONGEST => {}
        Err(error) => panic!("{error}"),
    }
    written(child)
}

/// One byte to a message, so that no read gives more than one; an empty message is read as the end.
fn byte_by_byte(bytes: &[u8]) -> String {
    let (ours, theirs) = UnixDatagram::pair().expect("a pair of sockets");
    let child = start(&mut Command::new(program()), OwnedFd::from(theirs));
    for byte in bytes {
        ours.send(&[*byte]).expect("the program reads on");
    }
    ours.send(&[]).expect("the program reads on");
    written(child)
}

#[test]
fn prints_the_line_that_is_owed() {
    let mut mix = Mix::new("the program").require("PATH", 25.0).require("REFUSED", 50.0).require("byte by byte", 90.0);
    let file = Path::new(env!("CARGO_TARGET_TMPDIR")).join("sheet.tlg");
    let stored = sheets::all().into_iter().enumerate().map(|(number, sheet)| (sheets::name(number), sheet.bytes));
    for (name, bytes) in stored.chain(sheets::samples()) {
        let owed = judge::sheet_line(&bytes);
        fs::write(&file, &bytes).expect("room for a sheet");
        assert_eq!(from_file(&file), owed, "{name}");
        assert_eq!(through_pipe(&bytes), owed, "{name}, through a pipe");
        assert!(bytes.len() > SHORT || byte_by_byte(&bytes) == owed, "{name}, byte by byte");
        mix.case();
        mix.count("PATH", owed.starts_with("PATH "));
        mix.count("REFUSED", owed.starts_with("REFUSED "));
        mix.count("byte by byte", bytes.len() <= SHORT);
    }
    mix.finish();
}

/// "A read that fails is REFUSED 10 0: the end of the file was never seen": of a folder, of nothing at all, and of a
/// connection that is reset behind a whole sheet.
#[test]
fn a_read_that_fails_is_refused() {
    let folder = File::open(env!("CARGO_MANIFEST_DIR")).expect("a folder can be opened");
    assert_eq!(written(start(&mut Command::new(program()), folder)), "REFUSED 10 0\n");

    let mut closed = Command::new("sh");
    closed.args(["-c", "exec \"$0\" <&-"]).arg(program());
    assert_eq!(written(start(&mut closed, Stdio::null())), "REFUSED 10 0\n");

    let sheet = &sheets::all()[0].bytes;
    for (unread, owed) in [(&b""[..], judge::sheet_line(sheet)), (b"unread", "REFUSED 10 0\n".to_string())] {
        let (mut ours, mut theirs) = UnixStream::pair().expect("a pair of sockets");
        // what an end never read when it closes makes the other end's read fail, behind all that was sent
        theirs.write_all(unread).expect("room in a socket");
        ours.write_all(sheet).expect("room in a socket");
        drop(ours);
        assert_eq!(written(start(&mut Command::new(program()), OwnedFd::from(theirs))), owed);
    }
}

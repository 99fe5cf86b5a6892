//! The program itself on the stored pairs of `crates/line_cases`: a grammar file in its folder, a report through a pipe.
//!
//! The file's layout is told in `crates/line_cases/src/main.rt`.

use crate::published::{number, taken};
use std::io::{ErrorKind, Write};
use std::path::Path;
use std::process::{Command, Stdio};

/// The report is written to the pipe in pieces of so many bytes.
const PIECE: usize = 1000;

pub fn program(reader: &str, cases: &str, folder: &str) -> Result<(), String> {
    let reader = std::fs::canonicalize(reader).map_err(|error| format!("{reader}: {error}"))?;
    let bytes = std::fs::read(cases).map_err(|error| format!("{cases}: {error}"))?;
    let stdout = Path::new(cases).with_file_name("../stdout");
    let expected = std::fs::read_to_string(&stdout).map_err(|error| error.to_string())?;
    let mut lines = expected.split_inclusive('\n');
    let (mut file, mut report) = (Vec::new(), Vec::new());
    let mut rest = &bytes[..];
    let mut count = 0;
    while !rest.is_empty() {
        let header = taken(&mut rest, 32)?;
        let label = String::from_utf8_lossy(taken(&mut rest, usize::from(header[1]))?);
        stored(&mut rest, &header[2..17], &mut file)?;
        stored(&mut rest, &header[17..32], &mut report)?;
        if header[0] != b'l' {
            return Err(format!("{label}: no such call"));
        }
        let printed = printed(&reader, Path::new(folder), &file, &report)
            .map_err(|error| format!("{}: {error}", reader.display()))?;
        let line = format!("{label}: {printed}");
        if lines.next() != Some(&line) {
            return Err(format!("{line}is not what {} has", stdout.display()));
        }
        count += 1;
    }
    if lines.next().is_some() {
        return Err(format!("{} has more than {count} lines", stdout.display()));
    }
    println!("the program on {count} stored pairs: no difference");
    Ok(())
}

/// Puts a file or report together from the one before it and the bytes that are stored.
fn stored(rest: &mut &[u8], numbers: &[u8], bytes: &mut Vec<u8>) -> Result<(), String> {
    let [same, head, distance, middle, size] =
        [0, 3, 6, 9, 12].map(|at| number(&numbers[at..at + 3]));
    bytes.truncate(same);
    bytes.extend(taken(rest, head - same)?);
    for i in head..middle {
        bytes.push(bytes[i - distance]);
    }
    bytes.extend(taken(rest, size - middle)?);
    Ok(())
}

/// What the program prints.
fn printed(reader: &Path, folder: &Path, file: &[u8], report: &[u8]) -> std::io::Result<String> {
    std::fs::write(folder.join("grammar.bin"), file)?;
    let mut child = Command::new(reader)
        .current_dir(folder)
        .stdin(Stdio::piped())
        .stdout(Stdio::piped())
        .spawn()?;
    let mut stdin = child.stdin.take().expect("the pipe that was asked for");
    for piece in report.chunks(PIECE) {
        match stdin.write_all(piece) {
            // It has read as much as tells that the report is over length.
            Err(error) if error.kind() == ErrorKind::BrokenPipe => break,
            other => other?,
        }
    }
    drop(stdin);
    let done = child.wait_with_output()?;
    if !done.status.success() {
        return Err(std::io::Error::other(done.status.to_string()));
    }
    Ok(String::from_utf8_lossy(&done.stdout).into_owned())
}

//! The program as a process: a sheet goes to its standard input, and all that it prints comes back.
use crate::root;
use std::io::{ErrorKind, Write};
use std::path::PathBuf;
use std::process::{Command, Stdio};
use std::thread::sleep;
use std::time::Duration;

/// What a process printed on both its outputs, and how it ended.
#[derive(Clone, Debug, PartialEq, Eq)]
pub struct Printed {
    pub out: Vec<u8>,
    pub errors: Vec<u8>,
    pub status: Option<i32>,
}

pub struct Program(PathBuf);

impl Program {
    /// The file that ./run starts.
    pub fn as_run() -> Program {
        Program(root().join("target/native/mill"))
    }

    /// Runs the program on a sheet.
    pub fn print(&self, sheet: &[u8]) -> Printed {
        self.print_pieces(&[sheet], Duration::ZERO)
    }

    /// Runs the program on a sheet that comes in pieces, with a pause before each but the first.
    pub fn print_pieces(&self, pieces: &[&[u8]], pause: Duration) -> Printed {
        let mut command = Command::new(&self.0);
        command.stdin(Stdio::piped()).stdout(Stdio::piped()).stderr(Stdio::piped());
        let advice = "run 'tests/native-lib mill' first (./test does)";
        let mut process = command.spawn().unwrap_or_else(|error| panic!("{}: {error}: {advice}", self.0.display()));
        let mut input = process.stdin.take().unwrap();
        for (i, piece) in pieces.iter().enumerate() {
            if i > 0 {
                sleep(pause);
            }
            // the program reads no more than it needs to see that a sheet is too long, and may be gone
            match input.write_all(piece) {
                Err(error) if error.kind() != ErrorKind::BrokenPipe => panic!("{error}"),
                _ => {}
            }
        }
        drop(input);
        let output = process.wait_with_output().unwrap();
        Printed { out: output.stdout, errors: output.stderr, status: output.status.code() }
    }
}

/// The process printed this text and nothing else, and ended well.
pub fn compare(want: &str, got: &Printed) -> Result<(), String> {
    if got.status != Some(0) {
        return Err(format!("it ended with {:?}, not 0", got.status));
    }
    if !got.errors.is_empty() {
        return Err(format!("it printed errors: {}", String::from_utf8_lossy(&got.errors)));
    }
    if got.out == want.as_bytes() {
        return Ok(());
    }
    let at = got.out.iter().zip(want.bytes()).take_while(|(got, want)| *got == want).count();
    let part =
        |bytes: &[u8]| String::from_utf8_lossy(&bytes[at.saturating_sub(20).min(bytes.len())..(at + 20).min(bytes.len())]).into_owned();
    Err(format!("it differs at byte {at}: {:?} is wanted, {:?} was printed", part(want.as_bytes()), part(&got.out)))
}

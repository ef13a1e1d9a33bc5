//! The program while it is live: what is said to it goes into a pipe, and its answers come by another.
use std::io::{self, ErrorKind, Read};
use std::os::unix::io::{AsFd, BorrowedFd};
use std::os::unix::process::ExitStatusExt;
use std::process::{Child, ChildStdout, Command, Stdio};
use std::thread::sleep;
use std::time::Duration;

use crate::apctl::feeder::Feeder;
use crate::apctl::protocol::{Answer, Answers};
use crate::apctl::recording::Recording;
use crate::control::faults::{reason, Fault};
use crate::os::clock::{now, Instant};
use crate::os::pipes::{set_nonblocking, set_room};
use crate::os::sandbox::Bounds;

const PIPE_LEN: i32 = 1 << 20;
pub(super) const PIECE_LEN: usize = 1 << 16;
const EVERY: Duration = Duration::from_millis(5);

/// Why the program wasn't begun. Landlock knows a file by its place in the kernel, which a file system of another
/// machine may give anew each time that a file is opened (9p does).
fn not_begun(path: &str, is_bounded: bool, fault: &io::Error) -> Fault {
    let of_landlock = match fault.kind() {
        ErrorKind::PermissionDenied if is_bounded => {
            " within its bounds: where the file system is another machine's (9p), copy the program and the configuration \
             to this machine's own, or say --as-root"
        }
        _ => "",
    };
    Fault::NotBegun(format!("{path}: {}{of_landlock}", reason(fault)))
}

/// `PROGRAM live --octets CONFIG`.
#[derive(Debug)]
pub struct Program {
    child: Child,
    output: ChildStdout,
    answers: Answers,
    /// Whether the last piece was all that there was: the next question need not be asked of the kernel.
    was_last: bool,
    /// Whether it has closed its output.
    pub has_ended: bool,
}

impl Program {
    /// Starts it, within bounds if there are such; what is said to it is recorded, if there is a record.
    pub fn start(
        path: &str,
        config: &str,
        bounds: Option<Bounds>,
        record: Option<Recording>,
    ) -> Result<(Program, Feeder), Fault> {
        let mut command = Command::new(path);
        command.args(["live", "--octets", config]).stdin(Stdio::piped()).stdout(Stdio::piped());
        let is_bounded = bounds.is_some();
        if let Some(bounds) = bounds {
            bounds.hold(&mut command);
        }
        let mut child = command.spawn().map_err(|fault| not_begun(path, is_bounded, &fault))?;
        match (child.stdin.take(), child.stdout.take()) {
            (Some(input), Some(output)) => {
                for pipe in [input.as_fd(), output.as_fd()] {
                    prepare(pipe)?;
                }
                let program = Program { child, output, answers: Answers::default(), was_last: false, has_ended: false };
                Ok((program, Feeder::new(input, record)))
            }
            _ => Err(Fault::NotBegun(format!("{path}: it has no pipes"))),
        }
    }

    pub fn process(&self) -> u32 {
        self.child.id()
    }

    /// By which one waits for its answers.
    pub fn descriptor(&self) -> BorrowedFd<'_> {
        self.output.as_fd()
    }

    /// Reads what it wrote, a piece of it at most, and answers whether there was one. After a piece that was all that
    /// there was the answer is `false` once, whatever came since.
    pub fn read(&mut self) -> Result<bool, Fault> {
        if std::mem::take(&mut self.was_last) {
            return Ok(false);
        }
        match self.output.read(self.answers.room(PIECE_LEN)) {
            Ok(0) => self.has_ended = true,
            Ok(length) => {
                self.was_last = length < PIECE_LEN;
                self.answers.came(length);
                return Ok(true);
            }
            Err(fault) if matches!(fault.kind(), ErrorKind::WouldBlock | ErrorKind::Interrupted) => {}
            Err(fault) => return Err(Fault::of("the program's output", &fault)),
        }
        Ok(false)
    }

    pub fn next_answer(&mut self) -> Result<Option<Answer>, Fault> {
        self.answers.next().map_err(|unknown| Fault::WrongAnswer(unknown.to_string()))
    }

    /// Its status once it has ended, as a shell tells it; it is killed if it doesn't end by then.
    pub fn status(&mut self, until: Instant) -> io::Result<i32> {
        while self.child.try_wait()?.is_none() && now() < until {
            sleep(EVERY);
        }
        if self.child.try_wait()?.is_none() {
            self.child.kill()?;
        }
        let status = self.child.wait()?;
        Ok(status.code().unwrap_or_else(|| 128 + status.signal().unwrap_or(0)))
    }
}

/// A pipe that blocks nobody and is as large as it may be.
fn prepare(pipe: BorrowedFd<'_>) -> Result<(), Fault> {
    set_nonblocking(pipe)?;
    // One that stays smaller is only slower.
    let _ = set_room(pipe, PIPE_LEN);
    Ok(())
}

#[cfg(test)]
mod tests {
    use super::*;

    #[test]
    fn a_program_that_may_not_be_run_within_its_bounds_is_told_so() {
        let said =
            |is_bounded, number| not_begun("apctl", is_bounded, &io::Error::from_raw_os_error(number)).to_string();
        assert_eq!(said(false, libc::EACCES), "apctl: Permission denied");
        assert_eq!(said(true, libc::ENOENT), "apctl: No such file or directory");
        let within = "apctl: Permission denied within its bounds: where the file system";
        assert!(said(true, libc::EACCES).starts_with(within));
    }
}

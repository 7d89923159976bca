//! Runs a program on an input, and many checks on all cores.

use std::io::{self, ErrorKind, Read, Write};
use std::path::Path;
use std::process::{Child, Command, ExitStatus, Stdio};
use std::sync::atomic::{AtomicBool, AtomicUsize, Ordering};
use std::sync::mpsc::{self, Receiver};
use std::sync::Mutex;
use std::thread;
use std::time::{Duration, Instant};

/// How long a program may take for one input.
const PATIENCE: Duration = Duration::from_secs(10);

/// How much of a program's output is read; none should come near to it.
const MOST_OUTPUT: u64 = 1 << 24;

/// What a program did.
#[derive(Debug)]
pub struct Output {
    /// All that it printed on standard output.
    pub stdout: Vec<u8>,
    /// All that it printed on standard error.
    pub stderr: Vec<u8>,
    /// How it ended, in the system's words.
    pub ending: String,
    /// Its exit status, if it ended by itself.
    pub status: Option<i32>,
    /// Whether it ended in time; otherwise it was stopped.
    pub in_time: bool,
}

/// Runs the program, with the input on its standard input.
pub fn run(program: &Path, input: &[u8]) -> io::Result<Output> {
    run_command(Command::new(program), input, PATIENCE)
}

/// All three streams have a thread of their own, so that the program may read
/// and write in whatever order it likes and nobody waits in a circle.
fn run_command(mut command: Command, input: &[u8], patience: Duration) -> io::Result<Output> {
    let mut child = command
        .stdin(Stdio::piped())
        .stdout(Stdio::piped())
        .stderr(Stdio::piped())
        .spawn()?;
    let streams = (child.stdin.take(), child.stdout.take(), child.stderr.take());
    let (stdin, stdout, stderr) = match streams {
        (Some(stdin), Some(stdout), Some(stderr)) => (stdin, stdout, stderr),
        _ => unreachable!("all three streams were asked for"),
    };
    let deadline = Instant::now() + patience;
    thread::scope(|scope| {
        let (at_end, ends) = mpsc::channel();
        let also_at_end = at_end.clone();
        let feeding = scope.spawn(move || feed(stdin, input));
        let printed = scope.spawn(move || {
            let text = collect(stdout);
            // Nobody listens any more when the program was too slow.
            let _ = at_end.send(());
            text
        });
        let complained = scope.spawn(move || {
            let text = collect(stderr);
            let _ = also_at_end.send(());
            text
        });
        let (status, in_time) = end(&mut child, &ends, deadline)?;
        feeding.join().expect("feeding does not panic")?;
        Ok(Output {
            stdout: printed.join().expect("collecting does not panic")?,
            stderr: complained.join().expect("collecting does not panic")?,
            ending: if in_time {
                status.to_string()
            } else {
                format!("stopped, not ended after {} s", patience.as_secs())
            },
            status: status.code(),
            in_time,
        })
    })
}

/// Gives the program its input. A program may stop reading when it has seen
/// enough, so a broken pipe is no error.
fn feed(mut stdin: impl Write, input: &[u8]) -> io::Result<()> {
    match stdin.write_all(input) {
        Err(error) if error.kind() != ErrorKind::BrokenPipe => Err(error),
        _ => Ok(()),
    }
}

fn collect(stream: impl Read) -> io::Result<Vec<u8>> {
    let mut text = Vec::new();
    stream.take(MOST_OUTPUT).read_to_end(&mut text)?;
    Ok(text)
}

/// Waits until the program has closed both its outputs and has ended, and
/// stops it at the deadline. Says how it ended and whether that was in time.
fn end(
    child: &mut Child,
    ends: &Receiver<()>,
    deadline: Instant,
) -> io::Result<(ExitStatus, bool)> {
    let left = || deadline.saturating_duration_since(Instant::now());
    for _ in 0..2 {
        if ends.recv_timeout(left()).is_err() {
            break;
        }
    }
    // The outputs mostly close because the program ends: it is a short wait.
    while !left().is_zero() {
        if let Some(status) = child.try_wait()? {
            return Ok((status, true));
        }
        thread::sleep(Duration::from_micros(50));
    }
    child.kill()?;
    Ok((child.wait()?, false))
}

/// Makes the checks number 0 up to `count` on all cores and gives what they
/// found, in no order, or the failure of the first check that failed.
///
/// Checks are taken up in order and those taken up are finished, so the least
/// failed number is the same in every run.
pub fn check_all<T: Send, E: Send>(
    count: usize,
    check: impl Fn(usize) -> Result<T, E> + Sync,
) -> Result<Vec<T>, E> {
    let next = AtomicUsize::new(0);
    let failed = AtomicBool::new(false);
    let found = Mutex::new(Vec::with_capacity(count));
    let failures = Mutex::new(Vec::new());
    let work = || {
        while !failed.load(Ordering::SeqCst) {
            let index = next.fetch_add(1, Ordering::SeqCst);
            if index >= count {
                break;
            }
            match check(index) {
                Ok(value) => found.lock().expect("no check panics").push(value),
                Err(failure) => {
                    failed.store(true, Ordering::SeqCst);
                    let mut failures = failures.lock().expect("no check panics");
                    failures.push((index, failure));
                }
            }
        }
    };
    thread::scope(|scope| {
        for _ in 0..thread::available_parallelism().map_or(2, usize::from) {
            scope.spawn(work);
        }
    });
    let failures = failures.into_inner().expect("no check panics");
    match failures.into_iter().min_by_key(|(index, _)| *index) {
        Some((_, failure)) => Err(failure),
        None => Ok(found.into_inner().expect("no check panics")),
    }
}

#[cfg(test)]
mod tests {
    use super::*;

    #[test]
    fn large_inputs_come_back_whole() {
        let input: Vec<u8> = (0..1_000_000_u32).map(|number| number as u8).collect();
        let output = run(Path::new("cat"), &input).expect("cat runs");
        assert_eq!(output.status, Some(0));
        assert!(output.stdout == input);
    }

    #[test]
    fn a_program_need_not_read() {
        let output = run(Path::new("true"), &vec![0; 1_000_000]).expect("true runs");
        assert_eq!(output.status, Some(0));
        assert!(output.stdout.is_empty());
    }

    #[test]
    fn a_program_that_does_not_end_is_stopped() {
        let mut command = Command::new("sleep");
        command.arg("60");
        let output = run_command(command, &[], Duration::from_millis(50)).expect("sleep runs");
        assert_eq!((output.status, output.in_time), (None, false));
    }

    #[test]
    fn the_first_failure_is_the_one_told() {
        let first = check_all(1_000, |index| {
            if index % 7 == 6 && index > 100 {
                return Err(index);
            }
            Ok(index)
        });
        assert_eq!(first, Err(104));
        let all = check_all(100, Ok::<usize, ()>).expect("none fails");
        assert_eq!(all.into_iter().sum::<usize>(), 4_950);
    }
}

//! Runs a program until it ends, and ends it if that takes too long.

use std::io::{Read, Write};
use std::process::{Child, ChildStdin, Command, ExitStatus, Output, Stdio};
use std::sync::mpsc::{channel, Receiver};
use std::thread;
use std::time::{Duration, Instant};

/// No right output is as long. Past it nothing is read, so that a program that prints without end stops by itself.
const MOST: u64 = 1 << 20;

const PAUSE: Duration = Duration::from_micros(100);

/// Long enough for a program that waits to read what was typed so far.
const BETWEEN: Duration = Duration::from_millis(20);

/// With nothing to read on standard input.
pub fn run(command: &mut Command, limit: Duration) -> Result<Output, String> {
    ended(command.stdin(Stdio::null()), Vec::new(), limit)
}

/// With these bytes on standard input, piece after piece with a pause between them.
pub fn run_typed(command: &mut Command, pieces: Vec<Vec<u8>>, limit: Duration) -> Result<Output, String> {
    ended(command.stdin(Stdio::piped()), pieces, limit)
}

fn ended(command: &mut Command, pieces: Vec<Vec<u8>>, limit: Duration) -> Result<Output, String> {
    let until = Instant::now() + limit;
    command.stdout(Stdio::piped()).stderr(Stdio::piped());
    let mut child = command.spawn().map_err(|why| format!("can't be started: {why}"))?;
    if let Some(stdin) = child.stdin.take() {
        typed(stdin, pieces);
    }
    let ended = output(&mut child, until);
    if ended.is_none() {
        let _ = child.kill();
        let _ = child.wait();
    }
    ended.ok_or(format!("did not end within {} s", limit.as_secs_f64()))
}

/// On a thread of its own: a program may end, or go on, without having read all of it. Standard input ends with the
/// thread.
fn typed(mut stdin: ChildStdin, pieces: Vec<Vec<u8>>) {
    thread::spawn(move || {
        for (i, piece) in pieces.iter().enumerate() {
            if i > 0 {
                thread::sleep(BETWEEN);
            }
            let _ = stdin.write_all(piece);
        }
    });
}

/// None if the program hasn't ended by then.
fn output(child: &mut Child, until: Instant) -> Option<Output> {
    let (stdout, stderr) = (gathered(child.stdout.take()?), gathered(child.stderr.take()?));
    let stdout = received(stdout, until)?;
    let stderr = received(stderr, until)?;
    Some(Output { status: status(child, until)?, stdout, stderr })
}

/// Reads on a thread of its own: a full pipe would hold the program up while the other one is read.
fn gathered(pipe: impl Read + Send + 'static) -> Receiver<Vec<u8>> {
    let (sender, receiver) = channel();
    thread::spawn(move || {
        let mut bytes = Vec::new();
        let _ = pipe.take(MOST).read_to_end(&mut bytes);
        let _ = sender.send(bytes);
    });
    receiver
}

fn received(from: Receiver<Vec<u8>>, until: Instant) -> Option<Vec<u8>> {
    from.recv_timeout(until.saturating_duration_since(Instant::now())).ok()
}

fn status(child: &mut Child, until: Instant) -> Option<ExitStatus> {
    loop {
        if let Some(status) = child.try_wait().ok()? {
            return Some(status);
        }
        if Instant::now() >= until {
            return None;
        }
        thread::sleep(PAUSE);
    }
}

#[cfg(test)]
mod tests {
    use super::{run, run_typed, MOST};
    use std::process::{Command, Output};
    use std::time::{Duration, Instant};

    fn shell(script: &str, limit: Duration) -> Result<Output, String> {
        run(Command::new("sh").args(["-c", script]), limit)
    }

    #[test]
    fn status_and_both_outputs() {
        let ended = shell("echo out; echo err >&2; exit 3", Duration::from_secs(20)).unwrap();
        assert_eq!((ended.stdout, ended.stderr), (b"out\n".to_vec(), b"err\n".to_vec()));
        assert_eq!(ended.status.code(), Some(3));
    }

    #[test]
    fn what_is_typed_is_read() {
        let typed = |pieces: &[&[u8]], script: &str| {
            let pieces = pieces.iter().map(|piece| piece.to_vec()).collect();
            run_typed(Command::new("sh").args(["-c", script]), pieces, Duration::from_secs(20)).unwrap()
        };
        assert_eq!(typed(&[b"one ", b"two"], "cat").stdout, b"one two");
        assert_eq!(typed(&[], "cat").stdout, b"");
        // More than a pipe holds, of which nothing is read.
        let ended = typed(&[&vec![0; 200_000]], "echo done");
        assert_eq!((ended.stdout, ended.status.success()), (b"done\n".to_vec(), true));
        assert_eq!(shell("cat", Duration::from_secs(20)).unwrap().stdout, b"");
    }

    #[test]
    fn a_program_without_end_is_ended() {
        let short = Duration::from_millis(200);
        for script in ["exec sleep 15", "exec >&- 2>&-; exec sleep 15", "sleep 15 & wait"] {
            let began = Instant::now();
            assert_eq!(shell(script, short), Err("did not end within 0.2 s".into()), "{script}");
            assert!(began.elapsed() < Duration::from_secs(15), "{script}");
        }
    }

    #[test]
    fn an_output_without_end_is_cut() {
        let ended = shell("while :; do echo more; done", Duration::from_secs(20)).unwrap();
        assert_eq!(ended.stdout.len() as u64, MOST);
        assert!(!ended.status.success());
    }

    #[test]
    fn a_program_that_is_not_there() {
        assert!(run(&mut Command::new("/no/such/program"), Duration::from_secs(20)).is_err());
    }
}

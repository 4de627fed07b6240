//! A program that is fed a file on its standard input, under a time limit.
use std::io::{self, Read, Write};
use std::process::{Child, Command, ExitStatus, Stdio};
use std::thread;
use std::time::{Duration, Instant};

pub const TIME_LIMIT: Duration = Duration::from_secs(10);
const BETWEEN_LOOKS: Duration = Duration::from_micros(100);

/// What a program writes for this input. The command is its path, with words behind it that it is given. It has to end
/// by itself within the limit, with status 0 and nothing on standard error.
pub fn run(command: &str, input: &[u8], limit: Duration) -> Result<Vec<u8>, String> {
    let (status, output, errors) = ended(command, input, limit).map_err(|error| format!("{command}: {error}"))?;
    match status {
        None => Err(format!("{command}: still running after {limit:?}")),
        Some(status) if !status.success() => Err(format!("{command}: {status}, standard error: {errors}")),
        Some(_) if !errors.is_empty() => Err(format!("{command}: standard error: {errors}")),
        Some(_) => Ok(output),
    }
}

/// How the program ended, or `None` where it had to be killed, and what it wrote.
fn ended(command: &str, input: &[u8], limit: Duration) -> io::Result<(Option<ExitStatus>, Vec<u8>, String)> {
    let mut words = command.split_whitespace();
    let pipe = Stdio::piped;
    let mut program = Command::new(words.next().unwrap_or_default())
        .args(words)
        .stdin(pipe())
        .stdout(pipe())
        .stderr(pipe())
        .spawn()?;
    let mut stdin = program.stdin.take().expect("standard input is a pipe");
    let mut stdout = program.stdout.take().expect("standard output is a pipe");
    let mut stderr = program.stderr.take().expect("standard error is a pipe");
    thread::scope(|scope| {
        // A program may stop reading early; what it answers is judged all the same.
        scope.spawn(move || drop(stdin.write_all(input)));
        let output = scope.spawn(move || read(&mut stdout));
        let errors = scope.spawn(move || read(&mut stderr));
        let status = wait(&mut program, Instant::now() + limit)?;
        let output = output.join().expect("reading does not panic")?;
        let errors = errors.join().expect("reading does not panic")?;
        Ok((status, output, String::from_utf8_lossy(&errors).into_owned()))
    })
}

fn read(pipe: &mut impl Read) -> io::Result<Vec<u8>> {
    let mut bytes = vec![];
    pipe.read_to_end(&mut bytes)?;
    Ok(bytes)
}

/// The status of a program that ends before the deadline. One that does not is killed, which closes its pipes.
fn wait(program: &mut Child, deadline: Instant) -> io::Result<Option<ExitStatus>> {
    loop {
        if let Some(status) = program.try_wait()? {
            return Ok(Some(status));
        }
        if Instant::now() > deadline {
            program.kill()?;
            program.wait()?;
            return Ok(None);
        }
        thread::sleep(BETWEEN_LOOKS);
    }
}

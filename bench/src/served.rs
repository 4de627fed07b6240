//! The Rust in processes of its own, which differ in what glibc does with memory that is freed.
//!
//! glibc's thresholds hold for a whole process, and what an earlier call left mapped serves a later one. So each choice
//! has a process, with the thresholds in its environment. It makes its grid, and then a call for each line that it gets,
//! so that the calls of all can be interleaved and no two run at once.
use std::io::{BufRead, BufReader, Write, stdin};
use std::process::{Child, ChildStdin, ChildStdout, Command, Stdio};
use std::time::Duration;
use std::{env, io};

use crate::clock::{Spent, timed};
use crate::plan::Plan;
use crate::sides::{Rusts, Units, hash_of};

/// What becomes of memory that is freed.
#[derive(Clone, Copy, Debug, PartialEq, Eq)]
pub enum Memory {
    /// Each block of 128 KiB or more is mapped anew, as in a program's first call.
    Cold,
    /// All stays mapped, as lent buffers do.
    Warm,
}

impl Memory {
    pub const ALL: [Memory; 2] = [Memory::Cold, Memory::Warm];

    /// The environment that brings it about. 32 MiB is the highest threshold for mapping that glibc takes.
    fn environment(self) -> &'static [(&'static str, &'static str)] {
        match self {
            Memory::Cold => &[("MALLOC_MMAP_THRESHOLD_", "131072"), ("MALLOC_TRIM_THRESHOLD_", "131072")],
            Memory::Warm => &[
                ("MALLOC_MMAP_THRESHOLD_", "33554432"),
                ("MALLOC_TRIM_THRESHOLD_", "1073741824"),
                ("MALLOC_TOP_PAD_", "67108864"),
            ],
        }
    }
}

/// A started process, which ends when its input does.
pub struct Served {
    child: Child,
    asked: Option<ChildStdin>,
    told: BufReader<ChildStdout>,
}

impl Served {
    /// Starts this program once more.
    pub fn start(plan: &Plan, memory: Memory) -> io::Result<Served> {
        let mut command = Command::new(env::current_exe()?);
        command.args(["serve", &plan.name()]).envs(memory.environment().iter().copied());
        let mut child = command.stdin(Stdio::piped()).stdout(Stdio::piped()).spawn()?;
        let (asked, told) = (child.stdin.take(), child.stdout.take().expect("it is piped"));
        Ok(Served { child, asked, told: BufReader::new(told) })
    }

    /// A call there: what it took, and the hash of its answer.
    pub fn call(&mut self, units: Units) -> Result<(Spent, u64), String> {
        let asked = self.asked.as_mut().expect("its input is open until it is dropped");
        let mut line = String::new();
        writeln!(asked, "{units:?}")
            .and_then(|()| self.told.read_line(&mut line))
            .map_err(|error| error.to_string())?;
        heard(&line)
    }
}

impl Drop for Served {
    /// Ends its input, and waits.
    fn drop(&mut self) {
        self.asked = None;
        self.child.wait().expect("a started process can be waited for");
    }
}

/// What the started process does: a line for each line.
pub fn serve(plan: &Plan) -> Result<(), String> {
    let case = plan.case();
    let rusts = Rusts::of(&case);
    for line in stdin().lines() {
        println!("{}", told(&rusts, &line.map_err(|error| error.to_string())?)?);
    }
    Ok(())
}

/// The line for a call of the build that a line names.
fn told(rusts: &Rusts, line: &str) -> Result<String, String> {
    let units = [Units::Sixteen, Units::One].into_iter().find(|units| format!("{units:?}") == line);
    let units = units.ok_or_else(|| format!("no build is {line:?}"))?;
    let (spent, answer) = timed(|| rusts.rust_call(units));
    Ok(format!("{} {} {}", spent.processor.as_nanos(), spent.wall.as_nanos(), hash_of(answer.cells())))
}

/// What such a line says.
fn heard(line: &str) -> Result<(Spent, u64), String> {
    let numbers: Vec<u64> = line.split_whitespace().filter_map(|word| word.parse().ok()).collect();
    let [processor, wall, hash] = numbers[..] else { return Err(format!("a served process says {line:?}")) };
    Ok((Spent { processor: Duration::from_nanos(processor), wall: Duration::from_nanos(wall) }, hash))
}

#[cfg(test)]
mod tests {
    use super::*;
    use crate::plans::{SMALL, plans};
    use crate::sides::expected;

    #[test]
    fn both_builds_tell_the_expected_answer() {
        for plan in plans(&SMALL) {
            let case = plan.case();
            for word in ["Sixteen", "One"] {
                let line = told(&Rusts::of(&case), word).expect("such a build is there");
                assert_eq!(heard(&line).expect("the line has its numbers").1, expected(&case).hash, "{}", plan.name());
            }
            assert!(told(&Rusts::of(&case), "Two").is_err());
        }
    }
}

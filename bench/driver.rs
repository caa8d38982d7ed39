//! Measures two replay programs against each other.
//!
//!     driver ROUNDS OURS SECOND TRACE...
//!
//! Each round runs both programs once on each trace, standard input from the
//! file and standard output to /dev/null, and takes the wall time from the
//! start of the process to its end. The two programs run one right after the
//! other, in every other round in the other order, and a round goes through
//! all traces, so that a machine that becomes slower or faster meanwhile does
//! so for both programs and for all traces. Medians are reported.
//!
//! A large part of each time is the start of a process. It is shown by a line
//! for an empty trace, which is not counted in the lines over all.
//!
//! Build: rustc --edition 2021 -O -o driver driver.rs

use std::fs::File;
use std::path::Path;
use std::process::{exit, Command, Stdio};
use std::time::{Duration, Instant};

fn main() {
    let arguments: Vec<String> = std::env::args().skip(1).collect();
    let [rounds, ours, second, traces @ ..] = &arguments[..] else {
        fail("usage: driver ROUNDS OURS SECOND TRACE...");
    };
    let rounds = match rounds.parse() {
        Ok(rounds) if rounds > 0 && !traces.is_empty() => rounds,
        _ => fail("ROUNDS must be a number above 0, and there must be a TRACE"),
    };

    // The first input is the empty trace.
    let mut inputs: Vec<Input> = vec![Input::of(None)];
    inputs.extend(traces.iter().map(|trace| Input::of(Some(trace))));
    for round in 0..=rounds {
        for input in &mut inputs {
            // Round 0 is not counted: it brings programs and traces into memory.
            input.run(ours, second, round);
        }
    }
    report(&inputs);
}

/// A trace, or the empty one, and the times that it has taken.
struct Input<'a> {
    trace: Option<&'a str>,
    ours: Vec<Duration>,
    second: Vec<Duration>,
}

impl<'a> Input<'a> {
    fn of(trace: Option<&'a String>) -> Input<'a> {
        Input { trace: trace.map(String::as_str), ours: Vec::new(), second: Vec::new() }
    }

    fn run(&mut self, ours: &str, second: &str, round: usize) {
        let (ours_time, second_time);
        if round % 2 == 1 {
            ours_time = time_of(ours, self.trace);
            second_time = time_of(second, self.trace);
        } else {
            second_time = time_of(second, self.trace);
            ours_time = time_of(ours, self.trace);
        }
        if round > 0 {
            self.ours.push(ours_time);
            self.second.push(second_time);
        }
    }

    fn medians(&self) -> Medians {
        Medians { ours: median(&self.ours), second: median(&self.second) }
    }

    fn name(&self) -> String {
        let Some(trace) = self.trace else {
            return "(empty trace)".to_string();
        };
        Path::new(trace).file_stem().unwrap_or_default().to_string_lossy().into_owned()
    }
}

fn report(inputs: &[Input]) {
    println!("{:<28} {:>10} {:>10} {:>12}", "median wall time, ms", "ours", "second", "ours/second");
    for input in inputs {
        input.medians().print(&input.name());
    }
    let (empty, traces) = (inputs[0].medians(), &inputs[1..]);
    let all = Medians {
        ours: traces.iter().map(|input| input.medians().ours).sum(),
        second: traces.iter().map(|input| input.medians().second).sum(),
    };
    all.print("over all");
    let count = traces.len() as u32;
    let less_start = Medians {
        ours: all.ours.saturating_sub(empty.ours * count),
        second: all.second.saturating_sub(empty.second * count),
    };
    less_start.print("over all, less empty trace");
}

struct Medians {
    ours: Duration,
    second: Duration,
}

impl Medians {
    fn print(&self, name: &str) {
        let [ours, second] = [self.ours, self.second].map(|time| time.as_secs_f64() * 1_000.0);
        println!("{name:<28} {ours:>10.3} {second:>10.3} {:>12.2}", ours / second);
    }
}

/// The time of one run. Without a trace the input is empty.
fn time_of(program: &str, trace: Option<&str>) -> Duration {
    let input = match trace {
        None => Stdio::null(),
        Some(trace) => match File::open(trace) {
            Ok(file) => file.into(),
            Err(error) => fail(&format!("{trace}: {error}")),
        },
    };
    let mut command = Command::new(program);
    command.stdin(input).stdout(Stdio::null());
    let start = Instant::now();
    let status = command.status();
    let time = start.elapsed();
    match status {
        Ok(status) if status.success() => time,
        Ok(status) => fail(&format!("{program}: {status}")),
        Err(error) => fail(&format!("{program}: {error}")),
    }
}

fn median(times: &[Duration]) -> Duration {
    let mut times = times.to_vec();
    times.sort();
    let middle = times.len() / 2;
    if times.len() % 2 == 1 {
        times[middle]
    } else {
        (times[middle - 1] + times[middle]) / 2
    }
}

fn fail(reason: &str) -> ! {
    eprintln!("driver: {reason}");
    exit(1)
}

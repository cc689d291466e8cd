//! Runs the first implementation's programs and compares them with this one, byte for byte.

use crate::families::{self, Play, Program, Test, PROGRAMS};
use crate::process::{self, Fault, Printed};
use crate::seen::Seen;
use crate::{cuts, driver, listing, replay, text, vectors};
use std::path::{Path, PathBuf};
use std::sync::atomic::{AtomicBool, AtomicUsize, Ordering};
use std::sync::Mutex;
use std::thread;

const WORKERS: usize = 2;
/// Bytes of an input, and characters of a line, that are shown of the first difference.
const SHOWN: usize = 400;

/// What the first implementation does in another way.
struct Difference {
    name: String,
    wrong: Wrong,
}

/// What is wrong with one run, and what shows it.
struct Wrong {
    what: String,
    detail: String,
}

/// The word that has `replay_program` mark the end of a run on standard error.
const MARKED: &[&str] = &["marked"];

struct Comparison {
    folder: PathBuf,
    seed: u64,
    /// Programs that are not run any more: missing, or hung once.
    out: [AtomicBool; PROGRAMS.len()],
    /// What this implementation printed for the tests so far.
    seen: Mutex<Seen>,
}

#[derive(Default)]
struct Score {
    passed: usize,
    /// Each with its place among the tests, because the workers do not find them in order.
    failed: Vec<(usize, Difference)>,
}

/// Runs all tests; true if none failed. The last line is the score.
pub fn compare(folder: &Path, seed: u64, count: u64) -> bool {
    println!("seed {seed}, count {count}; one test is one input, a short stream or capture in all its cuts too");
    let comparison = Comparison::new(folder, seed);
    let mut score = comparison.first_look();
    let tests = families::tests(count);
    let whole = comparison.run_all(&tests);
    score.passed += whole.passed;
    score.failed.extend(whole.failed);
    comparison.check_seen(count, &mut score);
    report(&score);
    println!("{} passed, {} failed", score.passed, score.failed.len());
    score.failed.is_empty()
}

/// Each failure by name, and the details of the first that has any.
fn report(score: &Score) {
    let mut detailed = false;
    for (_, difference) in &score.failed {
        println!("{}: {}", difference.name, difference.wrong.what);
        if !detailed {
            print!("{}", difference.wrong.detail);
            detailed = !difference.wrong.detail.is_empty();
        }
    }
}

impl Comparison {
    fn new(folder: &Path, seed: u64) -> Comparison {
        Comparison { folder: folder.into(), seed, out: Default::default(), seen: Default::default() }
    }

    /// The worked examples by both, and whether the programs are there.
    fn first_look(&self) -> Score {
        let mut score = Score::default();
        for program in PROGRAMS {
            if !self.path(program).is_file() {
                self.leave_out(program);
                score.fail(0, program.name(), "missing".into());
            }
        }
        for Worked { name, program, input, text } in worked() {
            let name = format!("worked example {name} by {}", program.name());
            score.check_text(&format!("{name}, second implementation"), &text, Ok(printed_for(program, &input).text));
            if self.takes_part(program) {
                let first = self.run(program, &input).map(|printed| printed.text);
                score.check_text(&format!("{name}, first implementation"), &text, first);
            }
        }
        score
    }

    /// Shares the tests between the workers.
    fn run_all(&self, tests: &[Test]) -> Score {
        let next = AtomicUsize::new(0);
        let score = Mutex::new(Score::default());
        let work = || {
            while let Some((place, test)) = next_of(tests, &next) {
                if !self.takes_part(test.play.program()) {
                    continue;
                }
                let result = self.run_test(test);
                let mut score = score.lock().expect("no worker panics while it counts");
                match result {
                    None => score.passed += 1,
                    Some(difference) => score.failed.push((place, difference)),
                }
            }
        };
        thread::scope(|scope| {
            for _ in 0..WORKERS {
                scope.spawn(work);
            }
        });
        let mut score = score.into_inner().expect("no worker panicked");
        score.failed.sort_by_key(|&(place, _)| place);
        score
    }

    fn run_test(&self, test: &Test) -> Option<Difference> {
        let input = test.input(self.seed);
        let wrong = match test.play {
            Play::Cuts => self.wrong_in_reads(&input),
            Play::Live => self.wrong_live(&input),
            _ => {
                let program = test.play.program();
                wrong(&input, &self.run(program, &input), &self.expected(program, &input))
            }
        };
        wrong.map(|wrong| Difference { name: test.name(self.seed), wrong })
    }

    /// The first cut into reads with which something is wrong.
    fn wrong_in_reads(&self, capture: &[u8]) -> Option<Wrong> {
        let second = Printed { words: Vec::new(), ..self.expected(Program::Replay, capture) };
        cuts::of(capture).find_map(|pieces| {
            let first = self.outcome(Program::Replay, process::run_in_reads(&self.path(Program::Replay), &pieces));
            let Wrong { what, detail } = wrong(capture, &first, &second)?;
            let sizes: Vec<usize> = pieces.iter().map(|piece| piece.len()).collect();
            Some(Wrong { what: format!("{what}, in reads of {sizes:?}"), detail })
        })
    }

    /// The lines of each record are awaited before more is sent.
    fn wrong_live(&self, capture: &[u8]) -> Option<Wrong> {
        let (steps, is_refused_before_end) = cuts::live(capture);
        let said = process::converse(&self.path(Program::Replay), &steps, is_refused_before_end);
        let first = self.outcome(Program::Replay, said.map(|text| Printed { text, words: Vec::new() }));
        let second = Printed { words: Vec::new(), ..self.expected(Program::Replay, capture) };
        wrong(capture, &first, &second)
    }

    /// What this implementation prints, counted.
    fn expected(&self, program: Program, input: &[u8]) -> Printed {
        let printed = printed_for(program, input);
        let seen = Seen::in_text(program, &printed.text);
        self.seen.lock().expect("no worker panics while it counts").add(&seen);
        printed
    }

    /// Each kind of answer has to come at least as often as most families have inputs, in what each program prints.
    fn check_seen(&self, least: u64, score: &mut Score) {
        let seen = self.seen.lock().expect("no worker panicked");
        for program in PROGRAMS.into_iter().filter(|&program| self.takes_part(program)) {
            let kinds: Vec<String> = seen.by(program).map(|(kind, count)| format!("{kind} {count}")).collect();
            println!("{}: {}", program.name(), kinds.join(", "));
            for (kind, count) in seen.by(program) {
                score.check_count(&format!("{kind} by {}", program.name()), least, count);
            }
        }
    }

    fn run(&self, program: Program, input: &[u8]) -> Result<Printed, String> {
        let words = if program == Program::Replay { MARKED } else { &[] };
        self.outcome(program, process::run(&self.path(program), words, input.to_vec()))
    }

    fn outcome(&self, program: Program, ran: Result<Printed, Fault>) -> Result<Printed, String> {
        ran.map_err(|fault| match fault {
            Fault::Missing(reason) => format!("cannot be started: {reason}"),
            Fault::Died(status) => format!("died: {status}"),
            Fault::Hung => {
                // One that hangs once would hang for hours.
                self.leave_out(program);
                "hung".into()
            }
        })
    }

    fn path(&self, program: Program) -> PathBuf {
        self.folder.join(program.name())
    }

    fn takes_part(&self, program: Program) -> bool {
        !self.out[program as usize].load(Ordering::Relaxed)
    }

    fn leave_out(&self, program: Program) {
        self.out[program as usize].store(true, Ordering::Relaxed);
    }
}

impl Score {
    fn fail(&mut self, place: usize, name: &str, what: String) {
        let difference = Difference { name: name.into(), wrong: Wrong { what, detail: String::new() } };
        self.failed.push((place, difference));
    }

    fn check_count(&mut self, name: &str, least: u64, count: u64) {
        if count >= least {
            self.passed += 1;
        } else {
            self.fail(usize::MAX, name, format!("seen {count} times, expected {least} or more"));
        }
    }

    fn check_text(&mut self, name: &str, text: &str, output: Result<Vec<u8>, String>) {
        match output {
            Ok(output) if output == text.as_bytes() => self.passed += 1,
            Ok(output) => {
                let what = format!("differs:\n{}", String::from_utf8_lossy(&output));
                self.fail(0, name, what);
            }
            Err(fault) => self.fail(0, name, fault),
        }
    }
}

/// An input with the exact text that is to be printed for it.
struct Worked {
    name: String,
    program: Program,
    input: Vec<u8>,
    text: String,
}

fn worked() -> Vec<Worked> {
    let streams = [
        (Program::List, vectors::LISTED.to_vec(), vectors::LISTING),
        (Program::Replay, vectors::replayed(), vectors::REPLAY),
        (Program::List, vectors::broken(), vectors::BROKEN_LISTING),
        (Program::Driver, vectors::broken_script(), vectors::BROKEN_CALLS),
        (Program::Replay, vectors::broken_capture(), vectors::BROKEN_REPLAY),
    ];
    let streams = streams.into_iter().zip(1..).map(|((program, input, text), number)| Worked {
        name: number.to_string(),
        program,
        input,
        text: text.into(),
    });
    let calls = vectors::calls().into_iter().map(|calls| Worked {
        name: format!("({})", calls.title),
        program: Program::Driver,
        input: calls.script,
        text: calls.text,
    });
    streams.chain(calls).collect()
}

fn next_of<'a>(tests: &'a [Test], next: &AtomicUsize) -> Option<(usize, &'a Test)> {
    let place = next.fetch_add(1, Ordering::Relaxed);
    tests.get(place).map(|test| (place, test))
}

/// What is to be printed for the input, by this implementation.
fn printed_for(program: Program, mut input: &[u8]) -> Printed {
    let mut text = Vec::new();
    let played = match program {
        Program::List => listing::list(&mut input, &mut text).map(|()| &b""[..]),
        Program::Driver => driver::play(&mut input, &mut text).map(|()| &b""[..]),
        Program::Replay => replay::replay(&mut input, &mut text).map(mark),
    };
    let words = played.expect("memory can be read and written").to_vec();
    Printed { text, words }
}

fn mark(is_whole: bool) -> &'static [u8] {
    if is_whole {
        b"whole\n"
    } else {
        b"refused\n"
    }
}

fn wrong(input: &[u8], first: &Result<Printed, String>, second: &Printed) -> Option<Wrong> {
    match first {
        Ok(first) if first == second => None,
        Ok(first) if first.text == second.text => {
            let detail = describe(input, &first.words, &second.words);
            Some(Wrong { what: "differs on standard error".into(), detail })
        }
        Ok(first) => Some(Wrong { what: "differs".into(), detail: describe(input, &first.text, &second.text) }),
        Err(fault) => Some(Wrong { what: fault.clone(), detail: input_line(input) }),
    }
}

/// The input and the first line that differs.
fn describe(input: &[u8], first: &[u8], second: &[u8]) -> String {
    let mut first_lines = first.split(|&byte| byte == b'\n');
    let mut second_lines = second.split(|&byte| byte == b'\n');
    let mut number = 0;
    loop {
        number += 1;
        let lines = (first_lines.next(), second_lines.next());
        if lines.0 != lines.1 || lines.0.is_none() {
            let [first, second] = [shown(lines.0), shown(lines.1)];
            return format!(
                "{}  line {number}, first:  {first}\n  line {number}, second: {second}\n",
                input_line(input)
            );
        }
    }
}

fn input_line(input: &[u8]) -> String {
    let cut = if input.len() > SHOWN { " .." } else { "" };
    format!("  input, {} bytes: {}{cut}\n", input.len(), text::hex(&input[..input.len().min(SHOWN)]))
}

fn shown(line: Option<&[u8]>) -> String {
    match line {
        None => "(no such line)".into(),
        Some(line) => String::from_utf8_lossy(&line[..line.len().min(SHOWN)]).into_owned(),
    }
}

#[cfg(test)]
mod tests {
    use super::*;

    #[test]
    fn worked_examples() {
        for Worked { name, program, input, text } in worked() {
            assert_eq!(String::from_utf8_lossy(&printed_for(program, &input).text), text, "{name}");
        }
    }

    /// A program that still answers 13 for a late break, or returns no byte.
    #[test]
    fn old_answers_differ() {
        let second = printed_for(Program::Driver, &vectors::broken_script());
        for (new, old) in [("feed 19 10 9 19 0", "feed 13 10 9 19 0"), ("feed 13 7 29 36 0", "feed 13 7 29 36")] {
            let text = vectors::BROKEN_CALLS.replace(&format!("{new}\n"), &format!("{old}\n"));
            assert_ne!(text, vectors::BROKEN_CALLS);
            let first = Printed { text: text.into_bytes(), words: Vec::new() };
            let wrong = wrong(&[], &Ok(first), &second).expect("a difference");
            assert!(wrong.detail.contains(&format!("first:  {old}\n")), "{}", wrong.detail);
        }
    }
}

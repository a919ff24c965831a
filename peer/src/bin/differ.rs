//! Plays seeded scripts here and with another program, and compares the answers byte by byte.

use peer::{generate, script::rehearse, shrink::shrink};
use std::ffi::{OsStr, OsString};
use std::io::{Read, Write};
use std::process::{Command, ExitCode, Stdio, exit};
use std::sync::mpsc;
use std::time::{Duration, Instant};
use std::{env, fs, thread};

const SEED: u64 = 1;
const KINDS: [&[u8]; 5] = [b"ask", b"promise", b"part", b"took", b"begin"];
/// How long the program may take for one script.
const PATIENCE: Duration = Duration::from_secs(10);
/// How often, and for how long, a script is tried while it is shortened.
const TRIES: usize = 5000;
const TRYING: Duration = Duration::from_secs(60);

fn main() -> ExitCode {
    let Some((program, count, seed)) = arguments() else {
        eprintln!("usage: differ PROGRAM COUNT [SEED]");
        return ExitCode::from(2);
    };
    println!("seed {seed}, {count} scripts");
    let mut tally = Tally::default();
    for index in 0..count {
        let script = generate::script(seed, index);
        let answers = rehearse(&script);
        tally.count(&script, &answers);
        if play(&program, &script) != Ok(answers) {
            println!("script {index} of seed {seed} differs");
            report(&program, &script);
            return ExitCode::FAILURE;
        }
    }
    println!("{count} scripts, {}", tally.text());
    ExitCode::SUCCESS
}

fn arguments() -> Option<(OsString, u64, u64)> {
    let mut arguments = env::args_os().skip(1);
    let number = |argument: OsString| argument.to_str()?.parse().ok();
    let program = arguments.next()?;
    let count = number(arguments.next()?)?;
    let seed = arguments.next().map_or(Some(SEED), number)?;
    arguments.next().is_none().then_some((program, count, seed))
}

/// What the program prints for the script, or how it failed.
fn play(program: &OsStr, script: &[u8]) -> Result<Vec<u8>, String> {
    let started = Command::new(program)
        .stdin(Stdio::piped())
        .stdout(Stdio::piped())
        .stderr(Stdio::null())
        .spawn();
    let mut child = started.unwrap_or_else(|error| {
        eprintln!("differ: {}: {error}", program.display());
        exit(2)
    });
    let mut input = child.stdin.take().expect("standard input is piped");
    let mut output = child.stdout.take().expect("standard output is piped");
    let script = script.to_vec();
    // A program may end without reading all; then its answers tell.
    let writer = thread::spawn(move || drop(input.write_all(&script)));
    let (sender, receiver) = mpsc::channel();
    thread::spawn(move || {
        let mut answers = Vec::new();
        let read = output.read_to_end(&mut answers);
        drop(sender.send(read.map(|_| answers)));
    });
    let answers = receiver.recv_timeout(PATIENCE);
    if answers.is_err() {
        child.kill().expect("the program can be stopped");
    }
    let status = child.wait().expect("the program can be waited for");
    writer.join().expect("the writer ends with the program");
    match answers {
        Ok(Ok(answers)) if status.success() => Ok(answers),
        Ok(Ok(answers)) => Err(format!("{status} after {} bytes", answers.len())),
        Ok(Err(error)) => Err(format!("no answers: {error}")),
        Err(_) => Err(format!("no end within {} s", PATIENCE.as_secs())),
    }
}

/// Shortens a script that differs, keeps it in a file, and prints it with both outcomes.
fn report(program: &OsStr, script: &[u8]) {
    let start = Instant::now();
    let mut tries = 0;
    let shortest = shrink(script, |script| {
        tries += 1;
        tries <= TRIES && start.elapsed() < TRYING && play(program, script) != Ok(rehearse(script))
    });
    fs::create_dir_all("target/differ").expect("the folder target/differ can be made");
    fs::write("target/differ/script", &shortest).expect("target/differ/script can be written");
    println!("the shortest script that differs is in target/differ/script:");
    print_escaped(&shortest);
    println!("answers here:");
    print_escaped(&rehearse(&shortest));
    println!("answers of {}:", program.display());
    match play(program, &shortest) {
        Ok(answers) => print_escaped(&answers),
        Err(failure) => println!("  ({failure})"),
    }
}

fn print_escaped(text: &[u8]) {
    for line in text.split_inclusive(|byte| *byte == b'\n') {
        println!("  {}", line.escape_ascii());
    }
}

#[derive(Default)]
struct Tally {
    lines: usize,
    words: usize,
    refused_1: usize,
    refused_2: usize,
    refused_13: usize,
    shows: usize,
    messages: usize,
}

impl Tally {
    fn count(&mut self, script: &[u8], answers: &[u8]) {
        self.lines += script.split_inclusive(|byte| *byte == b'\n').count();
        for line in answers.split(|byte| *byte == b'\n') {
            let words: Vec<_> = line.split(|byte| *byte == b' ').skip(1).collect();
            match words[..] {
                [b"word", _] => self.words += 1,
                [b"refused", b"1"] => self.refused_1 += 1,
                [b"refused", b"2"] => self.refused_2 += 1,
                [b"refused", b"13"] => self.refused_13 += 1,
                [b"show"] => self.shows += 1,
                [kind, b"term", ..] if KINDS.contains(&kind) => self.messages += 1,
                _ => {}
            }
        }
    }

    fn text(&self) -> String {
        let Tally {
            lines,
            words,
            refused_1,
            refused_2,
            refused_13,
            shows,
            messages,
        } = self;
        let answers = words + refused_1 + refused_2 + refused_13 + shows + messages;
        format!(
            "{lines} lines, {answers} answers agree\n{words} words, {refused_1} refused 1, \
             {refused_2} refused 2, {refused_13} refused 13, {shows} shows, {messages} messages"
        )
    }
}

//! The second program on the command line: catalogue, text or bytes on standard
//! input, the answer on standard output.

mod bench;
#[cfg(test)]
mod fast;
mod second;

use std::env;
use std::io::{self, Read, Write};
use std::process::ExitCode;

const USAGE: &str = "usage: second list | import | export | parity | check | read | lookup N  (bytes on standard input)
       second bench [--rules]  (a script on standard input)";

/// All of standard input.
fn input() -> io::Result<Vec<u8>> {
    let mut bytes = Vec::new();
    io::stdin().lock().read_to_end(&mut bytes)?;
    Ok(bytes)
}

/// A catalogue from standard input, at most one byte more than the longest.
fn catalogue() -> io::Result<Vec<u8>> {
    let most = second::LONGEST_CATALOGUE as u64 + 1;
    let mut bytes = Vec::new();
    io::stdin().lock().take(most).read_to_end(&mut bytes)?;
    Ok(bytes)
}

/// A decimal number. One too great for any circuit stays too great.
fn number(text: &str) -> Option<u32> {
    if text.is_empty() || !text.bytes().all(|digit| digit.is_ascii_digit()) {
        return None;
    }
    Some(text.parse().unwrap_or(u32::MAX))
}

/// The answer to `lookup`.
fn lookup_text(bytes: &[u8], circuit: u32) -> String {
    match second::lookup(bytes, circuit) {
        Ok(record) => {
            let trace: String = record
                .trace
                .iter()
                .map(|character| format!("{character:02X}"))
                .collect();
            format!("found {:02X} {} {}\n", record.label, trace, record.flags)
        }
        Err(refusal) => format!("refused {refusal}\n"),
    }
}

/// The bytes, or the one line of "A refused file".
fn or_line(answer: Result<Vec<u8>, second::Refusal>) -> Vec<u8> {
    answer.unwrap_or_else(|refusal| format!("{refusal}\n").into_bytes())
}

/// Standard output's fault, said as one.
fn unwritten(error: io::Error) -> io::Error {
    io::Error::new(error.kind(), format!("standard output cannot be written: {error}"))
}

/// All of these bytes on standard output, there before this ends.
fn say(bytes: &[u8]) -> io::Result<()> {
    let mut output = io::stdout().lock();
    output.write_all(bytes).and_then(|()| output.flush()).map_err(unwritten)
}

/// A script from standard input, each line played when its LF has come and
/// what it prints written before the next is read; at the end, where asked, the
/// count of each rule's cases on standard error.
fn bench(rules: bool) -> io::Result<()> {
    let mut input = io::stdin().lock();
    let mut counts = second::coverage::Counts::new();
    let mut path = bench::Bench::new();
    let (mut line, mut said) = (Vec::new(), Vec::new());
    let mut count = 0;
    while bench::words::next_line(&mut input, &mut line)? {
        count += 1;
        if rules {
            path.line(&line, count, &mut said, &mut |name| counts.note(name));
        } else {
            path.line(&line, count, &mut said, &mut |_| {});
        }
        if !said.is_empty() {
            say(&said)?;
            said.clear();
        }
    }
    if rules {
        io::stderr().lock().write_all(counts.text().as_bytes())?;
    }
    Ok(())
}

/// The text for these arguments, or none where they are not understood.
fn answer(arguments: &[&str]) -> io::Result<Option<Vec<u8>>> {
    let text = match arguments {
        ["list"] => second::listing(&catalogue()?),
        ["import"] => or_line(second::import(&input()?)),
        ["export"] => or_line(second::export(&catalogue()?)),
        ["parity"] => format!("parity {:02X}\n", second::parity(&input()?)).into_bytes(),
        ["check"] => format!("check {}\n", u8::from(second::trace_check(&input()?))).into_bytes(),
        ["read"] => format!("read {}\n", second::word_reading(&input()?)).into_bytes(),
        ["lookup", text] => match number(text) {
            Some(circuit) => lookup_text(&catalogue()?, circuit).into_bytes(),
            None => return Ok(None),
        },
        ["bench"] => {
            bench(false)?;
            Vec::new()
        }
        ["bench", "--rules"] => {
            bench(true)?;
            Vec::new()
        }
        _ => return Ok(None),
    };
    Ok(Some(text))
}

fn run() -> io::Result<ExitCode> {
    let arguments: Vec<String> = env::args_os()
        .skip(1)
        .map(|argument| argument.to_string_lossy().into_owned())
        .collect();
    let arguments: Vec<&str> = arguments.iter().map(String::as_str).collect();
    match answer(&arguments)? {
        Some(text) => {
            say(&text)?;
            Ok(ExitCode::SUCCESS)
        }
        None => {
            let _ = writeln!(io::stderr(), "{USAGE}");
            Ok(ExitCode::from(2))
        }
    }
}

fn main() -> ExitCode {
    match run() {
        Ok(code) => code,
        Err(error) => {
            // Nothing is left to do where this line cannot be written either.
            let _ = writeln!(io::stderr(), "second: {error}");
            ExitCode::FAILURE
        }
    }
}

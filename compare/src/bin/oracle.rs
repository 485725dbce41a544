//! `oracle NAME WORD..`, or lines `NAME WORD` on the standard input.
//! Writes a line `NAME WORD RESULT` for each: the answer of pxfm's plain path.

use luhvend_compare::function::Function;
use luhvend_compare::word::{one_nan, parsed};
use std::io::{self, BufRead, BufWriter, Write};
use std::process::ExitCode;

fn answer(out: &mut impl Write, name: &str, word: &str) -> Result<(), String> {
    let function = Function::named(name)?;
    let word = parsed(word)?;
    let result = one_nan((function.oracle())(word));
    writeln!(out, "{name} {word:08x} {result:08x}").map_err(|e| e.to_string())
}

fn run() -> Result<(), String> {
    let mut out = BufWriter::new(io::stdout().lock());
    let mut arguments = std::env::args().skip(1);
    if let Some(name) = arguments.next() {
        Function::named(&name)?;
        for word in arguments {
            answer(&mut out, &name, &word)?;
        }
    } else {
        for line in io::stdin().lock().lines() {
            let line = line.map_err(|e| e.to_string())?;
            let mut parts = line.split_whitespace();
            match (parts.next(), parts.next(), parts.next()) {
                (None, _, _) => {}
                (Some(name), Some(word), None) => answer(&mut out, name, word)?,
                _ => return Err(format!("`{line}` is no line `NAME WORD`")),
            }
        }
    }
    out.flush().map_err(|e| e.to_string())
}

fn main() -> ExitCode {
    match run() {
        Ok(()) => ExitCode::SUCCESS,
        Err(what) => {
            eprintln!("oracle: {what}");
            ExitCode::from(2)
        }
    }
}

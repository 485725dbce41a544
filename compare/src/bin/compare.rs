//! `compare [--threads N] [--from WORD] [--to WORD] [NAME..]`
//!
//! Compares ours with the oracle on every word from WORD to WORD (all 2^32 if
//! nothing is said), for the named functions or all six. Any NaN counts as
//! one value. The exit status is 1 if there is a difference that the
//! standards do not ask for, or an answer that goes against them.

use luhvend_compare::function::{Function, ALL};
use luhvend_compare::standard::{decided, Case};
use luhvend_compare::word::{one_nan, parsed, SIGN};
use std::process::ExitCode;
use std::sync::atomic::{AtomicU64, Ordering};
use std::thread;
use std::time::Instant;

/// How many words of a kind are listed.
const LISTED: usize = 20;
/// How many words a thread takes at a time.
const SHARE: u64 = 1 << 20;

struct Wanted {
    threads: usize,
    from: u32,
    to: u32,
    functions: Vec<Function>,
}

fn wanted() -> Result<Wanted, String> {
    let mut wanted = Wanted {
        threads: 2,
        from: 0,
        to: u32::MAX,
        functions: Vec::new(),
    };
    let mut arguments = std::env::args().skip(1);
    while let Some(argument) = arguments.next() {
        let mut value = || {
            arguments
                .next()
                .ok_or_else(|| format!("{argument} needs a value"))
        };
        match argument.as_str() {
            "--threads" => {
                let text = value()?;
                wanted.threads = match text.parse() {
                    Ok(n) if n > 0 => n,
                    _ => return Err(format!("`{text}` is no number of threads")),
                }
            }
            "--from" => wanted.from = parsed(&value()?)?,
            "--to" => wanted.to = parsed(&value()?)?,
            name => wanted.functions.push(Function::named(name)?),
        }
    }
    if wanted.from > wanted.to {
        return Err("--from is above --to".to_string());
    }
    if wanted.functions.is_empty() {
        wanted.functions = ALL.to_vec();
    }
    Ok(wanted)
}

/// A word with both answers.
#[derive(Clone, Copy)]
struct Seen {
    word: u32,
    ours: u32,
    oracle: u32,
}

/// Words of one kind: how many, and the first of them.
#[derive(Default)]
struct Kind {
    count: u64,
    first: Vec<Seen>,
}

impl Kind {
    fn add(&mut self, seen: Seen) {
        self.count += 1;
        if self.first.len() < LISTED {
            self.first.push(seen);
        }
    }

    fn join(&mut self, other: Kind) {
        self.count += other.count;
        self.first.extend(other.first);
        self.first.sort_by_key(|seen| seen.word);
        self.first.truncate(LISTED);
    }

    fn list(&self) {
        for seen in &self.first {
            println!(
                "    {:08x}  ours {:08x}  pxfm {:08x}",
                seen.word, seen.ours, seen.oracle
            );
        }
    }
}

#[derive(Default)]
struct Tally {
    compared: u64,
    equal: u64,
    cosine_of_half: u64,
    tangent_of_whole: u64,
    tangent_of_half: u64,
    /// Both NaN, under different words; these are among the equal ones.
    other_nan: u64,
    other: Kind,
    /// Equal, but the standards decide otherwise.
    against: Kind,
}

impl Tally {
    fn join(&mut self, other: Tally) {
        self.compared += other.compared;
        self.equal += other.equal;
        self.cosine_of_half += other.cosine_of_half;
        self.tangent_of_whole += other.tangent_of_whole;
        self.tangent_of_half += other.tangent_of_half;
        self.other_nan += other.other_nan;
        self.other.join(other.other);
        self.against.join(other.against);
    }

    fn add(&mut self, function: Function, word: u32, ours: u32, oracle: u32) {
        self.compared += 1;
        let seen = Seen { word, ours, oracle };
        let decided = decided(function, word);
        if one_nan(ours) == one_nan(oracle) {
            self.equal += 1;
            if ours != oracle {
                self.other_nan += 1;
            }
            if decided.is_some_and(|(_, answer)| answer != one_nan(ours)) {
                self.against.add(seen);
            }
            return;
        }
        // Ours the standard's, pxfm's the same with the other sign.
        match decided {
            Some((case, answer)) if ours == answer && oracle == answer ^ SIGN => match case {
                Case::CosineOfHalf => self.cosine_of_half += 1,
                Case::TangentOfWhole => self.tangent_of_whole += 1,
                Case::TangentOfHalf => self.tangent_of_half += 1,
            },
            _ => self.other.add(seen),
        }
    }

    fn print(&self, name: &str) {
        println!("{name}");
        let row = |what: &str, count: u64| println!("  {what:<64}{count:>10}");
        row("words compared", self.compared);
        row("equal", self.equal);
        row(
            "kind 1: cospif of n + 1/2, ours +0, pxfm -0",
            self.cosine_of_half,
        );
        row(
            "kind 2: tanpif of a whole n, the zero's sign",
            self.tangent_of_whole,
        );
        row(
            "kind 3: tanpif of n + 1/2, the infinity's sign",
            self.tangent_of_half,
        );
        row(
            "kind 4: NaN of another payload (no difference, among the equal)",
            self.other_nan,
        );
        row("kind 5: any other difference", self.other.count);
        self.other.list();
        row(
            "equal to pxfm where the standards decide otherwise",
            self.against.count,
        );
        self.against.list();
    }

    fn good(&self) -> bool {
        self.other.count == 0 && self.against.count == 0
    }
}

fn compared(function: Function, wanted: &Wanted) -> Tally {
    let oracle = function.oracle();
    let ours = function.ours();
    let end = u64::from(wanted.to) + 1;
    let next = AtomicU64::new(u64::from(wanted.from));
    let work = || {
        let mut tally = Tally::default();
        loop {
            // Each thread takes its shares upwards, so its first words are
            // the least of its own.
            let start = next.fetch_add(SHARE, Ordering::Relaxed);
            if start >= end {
                return tally;
            }
            for word in start..end.min(start + SHARE) {
                let word = word as u32;
                // The library's functions take any word and touch no memory
                // of ours.
                let answer = unsafe { ours(word) };
                let asked = oracle(word);
                tally.add(function, word, answer, asked);
            }
        }
    };
    let mut whole = Tally::default();
    thread::scope(|scope| {
        let threads: Vec<_> = (0..wanted.threads).map(|_| scope.spawn(work)).collect();
        for thread in threads {
            whole.join(thread.join().expect("a thread panicked"));
        }
    });
    whole
}

fn main() -> ExitCode {
    let wanted = match wanted() {
        Ok(wanted) => wanted,
        Err(what) => {
            eprintln!("compare: {what}");
            return ExitCode::from(2);
        }
    };
    let mut good = true;
    for &function in &wanted.functions {
        let start = Instant::now();
        let tally = compared(function, &wanted);
        let seconds = start.elapsed().as_secs_f64();
        tally.print(function.name());
        good &= tally.good();
        eprintln!(
            "{}: {seconds:.1} s, {:.1} million words per second and thread",
            function.name(),
            tally.compared as f64 / seconds / wanted.threads as f64 / 1e6
        );
    }
    if good {
        ExitCode::SUCCESS
    } else {
        ExitCode::FAILURE
    }
}

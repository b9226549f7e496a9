//! compare: performs a random series of calls on the library and on the model, and holds one to the other, call by call.
//!
//! After each call it compares the number, the blocks and whatever else the call answers, every byte of the lent room with guards around it, what is
//! lent to be read, and all of every state. It stops at the first difference. At the end it prints how often each call gave each number; in a
//! run of 20,000 calls or more each has to be seen.

#![deny(unsafe_code)]

mod account;
#[allow(unsafe_code)]
mod archive;
mod books;
mod call;
mod causes;
mod double;
mod layout;
mod make;
mod modelled;
mod pokes;
mod random;
mod series;
mod site;
mod tally;

use std::process::ExitCode;
use std::time::{Instant, SystemTime, UNIX_EPOCH};

use archive::Archive;
use call::{Gateway, Room};
use double::{Double, Fault};
use make::Plan;
use series::Series;
use tally::Tally;

const USAGE: &str = "\
usage: compare [--calls N] [--seed S] [--double FAULT]
       compare --faults

  --calls N   how many calls (default 20000)
  --seed S    the series' seed, a number (default: by the clock); the same seed gives the same calls
  --double F  a double with that fault takes the library's place: it has to be found out
  --faults    prints the faults' names, a line each; the first, none, is no fault

Exit status: 0 all alike; 1 a difference, or something that has to be seen wasn't; 2 it could not run.
";

struct Options {
    calls: u64,
    seed: u64,
    double: Option<Fault>,
}

fn by_the_clock() -> u64 {
    SystemTime::now().duration_since(UNIX_EPOCH).map_or(0, |time| time.as_nanos() as u64)
}

fn options(mut words: impl Iterator<Item = String>) -> Option<Options> {
    let mut options = Options { calls: tally::ENOUGH, seed: by_the_clock(), double: None };
    while let Some(word) = words.next() {
        let value = words.next()?;
        match word.as_str() {
            "--calls" => options.calls = value.parse().ok()?,
            "--seed" => options.seed = value.parse().ok()?,
            "--double" => options.double = Some(Fault::named(&value)?),
            _ => return None,
        }
    }
    Some(options)
}

/// One call on both sides. What differs, if anything does, is told in lines.
fn step(series: &mut Series, gateway: &mut dyn Gateway) -> Result<(), Vec<String>> {
    let (which, Plan { call, room }) = series.next();
    let room = Room::new(&mut series.random, room);
    let done = series.sites[which].perform(gateway, &call, &room);
    let others = series.sites.iter().enumerate().filter(|&(other, _)| other != which);
    let changed: Vec<String> = others
        .flat_map(|(other, site)| site.difference().into_iter().map(move |line| format!("gateway {other}, which isn't called: {line}")))
        .collect();
    match done {
        Ok(done) if changed.is_empty() => series.learn(which, &call, &done),
        done => {
            let call = [format!("gateway {which}, room of {} bytes, {call:#?}", room.len())];
            return Err(call.into_iter().chain(done.err().unwrap_or_default()).chain(changed).collect());
        }
    }
    Ok(())
}

/// The series up to its end or to the first difference, which is printed.
fn alike(options: &Options, series: &mut Series) -> bool {
    let mut gateway: Box<dyn Gateway> = match options.double {
        Some(fault) => Box::new(Double::new(fault)),
        None => Box::new(Archive),
    };
    for number in 1..=options.calls {
        if let Err(lines) = step(series, &mut *gateway) {
            println!("compare: seed {}: call {number} differs: {}", options.seed, lines.join("\n  "));
            return false;
        }
    }
    true
}

/// Prints the table, and what wasn't seen and has to be, or was and doesn't have to be.
fn all_seen(options: &Options, tally: &Tally) -> bool {
    tally.table().iter().for_each(|line| println!("{line}"));
    let unseen = if options.calls < tally::ENOUGH { Vec::new() } else { tally.unseen() };
    unseen.iter().for_each(|what| println!("never seen: {what}"));
    let unlisted = tally.unlisted();
    unlisted.iter().for_each(|what| println!("not listed by document 01: {what}"));
    unseen.is_empty() && unlisted.is_empty()
}

fn main() -> ExitCode {
    if std::env::args().skip(1).eq(["--faults"]) {
        Fault::all().iter().for_each(|fault| println!("{}", fault.name()));
        return ExitCode::SUCCESS;
    }
    let Some(options) = options(std::env::args().skip(1)) else {
        eprint!("{USAGE}");
        return ExitCode::from(2);
    };
    let (began, mut series) = (Instant::now(), Series::new(options.seed));
    println!("compare: seed {}, {} calls", options.seed, options.calls);
    if !alike(&options, &mut series) || !all_seen(&options, &series.tally) {
        return ExitCode::FAILURE;
    }
    println!("compare: {} calls, all alike, seed {} ({:.1} s)", series.tally.calls, options.seed, began.elapsed().as_secs_f64());
    ExitCode::SUCCESS
}

//! Holds the library beside the crate lc3-ensemble: `harness compare` and `harness bench`. README.md says what is compared.

mod bench;
mod compare;
mod crowded;
mod fixed;
mod generate;
mod grammar;
mod lent;
mod link_sample;
mod linking;
mod links;
mod modules;
mod random;
mod reader;
mod reference;
mod refusal;
mod sample;
mod spelling;
mod stored;
mod stored_sample;
mod storing;
mod strings;
mod valid;

use compare::Tally;
use link_sample::LinkSample;
use random::Random;
use sample::Sample;
use stored_sample::StoredSample;
use strings::Damaged;

const USAGE: &str = "\
usage: harness compare [--count N] [--links N] [--strings N] [--seed N] [--sample FILE] [--link-sample FILE] [--stored-sample FILE]
       harness bench [FILE...]
  compare  N generated sources (default 200,000) and the fixed ones, N generated sets of modules to link (default 100,000), and at least N byte
           strings to check and load (default 1,000,000); exit code 1 where anything differs that docs/DIFFERENCES.md does not name
  --sample, --link-sample, --stored-sample
           write some of them with their answers, where nothing differs
  bench    the crate and the library on the same inputs, or on the sources named
";

struct Options {
    count: usize,
    links: usize,
    strings: usize,
    seed: u64,
    sample: Option<String>,
    link_sample: Option<String>,
    stored_sample: Option<String>,
}

fn options(mut args: impl Iterator<Item = String>) -> Option<Options> {
    let mut o =
        Options { count: 200_000, links: 100_000, strings: 1_000_000, seed: 1, sample: None, link_sample: None, stored_sample: None };
    while let Some(flag) = args.next() {
        let value = args.next()?;
        match &*flag {
            "--count" => o.count = value.parse().ok()?,
            "--links" => o.links = value.parse().ok()?,
            "--seed" => o.seed = value.parse().ok()?,
            "--sample" => o.sample = Some(value),
            "--strings" => o.strings = value.parse().ok()?,
            "--link-sample" => o.link_sample = Some(value),
            "--stored-sample" => o.stored_sample = Some(value),
            _ => return None,
        }
    }
    Some(o)
}

/// Runs all sources; true if nothing differs.
fn compare(o: &Options) -> bool {
    let (mut tally, mut sample, mut random) = (Tally::new(o.seed), Sample::default(), Random::new(o.seed));
    compare::words(&mut tally);
    let fixed = fixed::short().into_iter().chain(fixed::long()).map(|src| (src, true));
    for (src, fixed) in fixed.chain((0..o.count).map(|_| (generate::source(&mut random), false))) {
        let answers = tally.source(&src, fixed);
        if o.sample.is_some() {
            answers.iter().for_each(|(sizes, answer)| sample.offer(&src, *sizes, answer));
        }
    }
    let link_sample = compare_links(o, &mut tally);
    let stored_sample = compare_stored(o, &mut tally);
    report(&tally);
    if tally.differences > 0 {
        return false;
    }
    if let Some(path) = &o.sample {
        let (lines, numbers) = sample.write(path).unwrap_or_else(|e| panic!("{path}: {e}"));
        println!("{path}: {lines} sources, {numbers} numbers");
    }
    if let Some(path) = &o.link_sample {
        let lines = link_sample.write(path).unwrap_or_else(|e| panic!("{path}: {e}"));
        println!("{path}: {lines} links");
    }
    if let Some(path) = &o.stored_sample {
        let lines = stored_sample.write(path).unwrap_or_else(|e| panic!("{path}: {e}"));
        println!("{path}: {lines} byte strings");
    }
    true
}

/// Runs all sets of modules, the same whatever sources went before.
fn compare_links(o: &Options, tally: &mut Tally) -> LinkSample {
    let (mut sample, mut random) = (LinkSample::default(), Random::new(o.seed));
    tally.random = Random::new(o.seed);
    for sources in modules::fixed().into_iter().chain((0..o.links).map(|_| modules::any(&mut random))) {
        let answers = tally.modules(&sources);
        if o.link_sample.is_some() {
            answers.iter().for_each(|linked| sample.offer(&sources, linked));
        }
    }
    sample
}

/// Runs all byte strings, the same whatever went before: the shortest, the fixed ones, and objects of modules with their damaged forms until there
/// are enough.
fn compare_stored(o: &Options, tally: &mut Tally) -> StoredSample {
    let (mut sample, mut random) = (StoredSample::default(), Random::new(o.seed));
    tally.random = Random::new(o.seed);
    let mut keep = |damaged: &Damaged, opened: &storing::Opened| sample.offer(damaged, opened);
    for bytes in strings::shortest() {
        let opened = tally.opened(&bytes);
        keep(&Damaged { bytes, kind: "up to two bytes" }, &opened);
    }
    for fields in strings::fixed() {
        for damaged in strings::damaged(&mut random, &fields) {
            let opened = tally.opened(&damaged.bytes);
            keep(&damaged, &opened);
        }
    }
    while tally.strings < o.strings {
        tally.stored_modules(&modules::any(&mut random), &mut keep);
    }
    sample
}

fn report(tally: &Tally) {
    println!("{} sources, {} answers compared", tally.sources, tally.calls);
    println!("answers by number:");
    for (number, count) in &tally.by_number {
        println!("  {number:>2} {count}");
    }
    println!("changed objects lent, by number: {:?}", tally.lent);
    println!("sources on which the crate does otherwise as docs/DIFFERENCES.md names:");
    for (name, count) in &tally.named {
        println!("  {count:>7} {name}");
    }
    println!(
        "{} sets of modules, {} links compared; {} sets keep to what any order and any grouping needs",
        tally.sets, tally.links, tally.promises
    );
    println!("links by number: {:?}", tally.links_by_number);
    println!("{} byte strings checked, by number: {:?}", tally.strings, tally.strings_by_number);
    println!("{} differences", tally.differences);
}

fn main() {
    refusal::quiet();
    let mut args = std::env::args().skip(1);
    let done = match args.next().as_deref() {
        Some("compare") => options(args).map(|o| compare(&o)),
        Some("bench") => Some(bench::bench(&args.collect::<Vec<_>>()).unwrap_or_else(|wrong| {
            eprintln!("harness: {wrong}");
            std::process::exit(2)
        }))
        .map(|()| true),
        _ => None,
    };
    let Some(done) = done else {
        eprint!("{USAGE}");
        std::process::exit(2);
    };
    std::process::exit(i32::from(!done));
}

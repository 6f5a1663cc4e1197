// A second program of the same rules, in plain Rust with the standard library alone, written from docs/ and not from the
// crates. `examples/beside` runs it beside `replay`.
//
// usage: reference record                     a load from standard input: recorded.sch, and how each cell fared
//        reference generate SEED N FOLDER    N loads made from the seed, as FOLDER/0.sch and so on
//        reference time FILE                  how long recording the load in FILE takes
mod generate;
mod load;
mod run;

use load::{Load, Refused};
use std::io::Read;

fn input() -> std::io::Result<Vec<u8>> {
    let mut bytes = Vec::new();
    std::io::stdin().take(19_017).read_to_end(&mut bytes)?;
    Ok(bytes)
}

fn record(load: &Load) -> std::io::Result<()> {
    let recording = run::perform(load);
    let slacks = run::slacks(load, &recording);
    std::fs::write("recorded.sch", load.file(2, &run::told(&slacks, &recording)))?;
    print!("{}", run::summary(load, &recording));
    Ok(())
}

fn generate(seed: &str, count: &str, folder: &str) -> std::io::Result<()> {
    let mut random = generate::Random::new(seed.parse().unwrap_or(0));
    for number in 0..count.parse().unwrap_or(0u32) {
        std::fs::write(format!("{folder}/{number}.sch"), generate::file(&mut random))?;
    }
    Ok(())
}

fn time(file: &str) -> std::io::Result<()> {
    let bytes = std::fs::read(file)?;
    if let Ok(load) = Load::read(&bytes) {
        let start = std::time::Instant::now();
        let recording = run::perform(&load);
        println!(
            "{:?} for {} slots",
            start.elapsed(),
            (0..load.cells.len()).map(|c| recording.exit(c)).max().unwrap_or(0)
        );
    }
    Ok(())
}

fn main() -> std::io::Result<()> {
    let words: Vec<String> = std::env::args().skip(1).collect();
    match words.iter().map(|w| w.as_str()).collect::<Vec<_>>()[..] {
        ["time", file] => time(file),
        ["generate", seed, count, folder] => generate(seed, count, folder),
        ["record"] => match Load::read(&input()?) {
            Ok(load) => record(&load),
            Err(Refused(number, place)) => {
                println!("refused {number} at {place}");
                Ok(())
            }
        },
        _ => {
            eprintln!("usage: reference record | generate SEED N FOLDER | time FILE");
            std::process::exit(2)
        }
    }
}

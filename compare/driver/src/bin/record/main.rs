//! Records a sample of the crate's answers, which the program `replay` compares with Brinebutton's without Rust.
//! The note `docs/REPLAY.md` has the file's layout and says which answers are the crate's own.

mod answer;
mod building;
mod inputs;
mod numbers;
mod opcodes;
mod sample;
mod scripts;

use std::io::Write;

use compare::lists::Random;

use crate::sample::{Sample, ENTRIES};

const USAGE: &str = "usage: record sample | summary
  sample    the recorded answers
  summary   what `replay` is to print when it agrees with all of them";

fn sample() -> Sample {
    let mut sample = Sample::new();
    let mut random = Random(32_102);
    opcodes::opcodes(&mut sample);
    numbers::numbers(&mut sample, &mut random);
    numbers::readings(&mut sample, &mut random);
    for bytes in inputs::scripts(&mut random) {
        scripts::script(&mut sample, &bytes, &mut random);
    }
    scripts::long_scripts(&mut sample, &mut random);
    building::sessions(&mut sample, &mut random);
    building::witnesses(&mut sample, &mut random);
    sample.end();
    sample
}

fn summary(sample: &Sample) -> String {
    let entries = ENTRIES.iter().map(|name| name.to_string()).zip(sample.counts);
    let differences = ('a'..='e').map(|letter| format!("difference ({letter})")).zip(sample.marked);
    let lines = entries.chain(differences).map(|(name, count)| format!("{name:26} {count}\n"));
    let agree = format!("{} records agree, {} of them marked\n", sample.records(), sample.marks());
    lines.chain([agree]).collect()
}

fn main() {
    let words: Vec<String> = std::env::args().skip(1).collect();
    let sample = match words.iter().map(String::as_str).collect::<Vec<_>>()[..] {
        ["sample" | "summary"] => sample(),
        _ => {
            eprintln!("{USAGE}");
            std::process::exit(2);
        }
    };
    let bytes = if words[0] == "sample" { sample.out.clone() } else { summary(&sample).into_bytes() };
    std::io::stdout().write_all(&bytes).expect("standard output takes the bytes");
    eprintln!(
        "{} bytes, {} records, {} answers left out as too long",
        sample.out.len(),
        sample.records(),
        sample.left_out
    );
}

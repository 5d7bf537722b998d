//! Prints what the crate answers.

use std::fmt::Debug;
use std::process::ExitCode;

use compare::answers::{About, AboutOpcode, Call, Mode, Outcome, Refusal, Step};
use compare::{crate_side, hex};

const USAGE: &str = "\
ask HEX..                  everything about one script; HEX*N repeats
ask dust RATE HEX..        its dust figure at a rate in satoshi per 1000 weight units
ask number N               the bytes of a number
ask read HEX..             bytes read as a number and as a truth value
ask build CALL..           a builder session: start:HEX (first only), op:HEX, int:N, push:HEX, verify, locktime:N, sequence:N
ask witness VERSION HEX..  the script of a witness program
ask names                  the 256 opcodes";

fn main() -> ExitCode {
    let words: Vec<String> = std::env::args().skip(1).collect();
    match run(&words) {
        Ok(()) => ExitCode::SUCCESS,
        Err(message) => {
            eprintln!("{message}");
            ExitCode::FAILURE
        }
    }
}

fn run(words: &[String]) -> Result<(), String> {
    let (first, rest) = words.split_first().ok_or(USAGE)?;
    match first.as_str() {
        "dust" => {
            let (rate, script) = rest.split_first().ok_or(USAGE)?;
            show_outcome(
                "minimal_non_dust_custom",
                &crate_side::minimal_non_dust_custom(&hex::read_all(script)?, number(rate)?),
            );
        }
        "number" => match crate_side::write_scriptint(number(rest.first().ok_or(USAGE)?)?) {
            Outcome::Answer(bytes) => println!("bytes {}", hex::show(&bytes)),
            Outcome::Panicked => println!("panicked"),
        },
        "read" => show_readings(&hex::read_all(rest)?),
        "build" => show_session(rest)?,
        "witness" => {
            let (version, program) = rest.split_first().ok_or(USAGE)?;
            show_program(number(version)?, &hex::read_all(program)?);
        }
        "names" => (0..=255).for_each(|code| show_opcode(code, &crate_side::about_opcode(code))),
        _ => show_about(&crate_side::about(&hex::read_all(words)?)),
    }
    Ok(())
}

fn number<T: std::str::FromStr>(text: &str) -> Result<T, String> {
    text.parse().map_err(|_| format!("no such number: {text}"))
}

fn show_about(about: &About) {
    println!("length {}", about.length);
    show_walk(Mode::Plain, &about.plain, about.length);
    show_walk(Mode::Minimal, &about.minimal, about.length);
    for (name, yes) in about.tests() {
        println!("{name} {yes}");
    }
    show_outcome("is_multisig", &about.is_multisig);
    println!("witness_version {}", or_nothing(about.witness_version.map(|n| n.to_string())));
    for (name, bytes) in [
        ("p2pk_public_key", &about.p2pk_public_key),
        ("redeem_script", &about.redeem_script),
        ("p2wpkh_script_code", &about.p2wpkh_script_code),
    ] {
        println!("{name} {}", or_nothing(bytes.as_ref().map(|bytes| format!("[{}]", hex::show(bytes)))));
    }
    println!("count_sigops {}", about.count_sigops);
    println!("count_sigops_legacy {}", about.count_sigops_legacy);
    println!("minimal_non_dust {}", about.minimal_non_dust);
    for (rate, figure) in &about.minimal_non_dust_custom {
        show_outcome(&format!("minimal_non_dust_custom at {rate}"), figure);
    }
    println!("asm {}", String::from_utf8_lossy(&about.asm));
}

fn show_walk(mode: Mode, steps: &[Step], length: usize) {
    let name = match mode {
        Mode::Plain => "plain",
        Mode::Minimal => "minimal",
    };
    for step in steps {
        match step {
            Step::Opcode { place, code } => println!("{name} {place}: opcode {code:02x}"),
            Step::Push { place, body_place, body } => {
                println!("{name} {place}: push of {} at {body_place} [{}]", body.len(), hex::show(body))
            }
            Step::Refused(refusal) => println!("{name} {}", refused(*refusal)),
        }
    }
    if !matches!(steps.last(), Some(Step::Refused(_))) {
        println!("{name} {length}: end");
    }
}

fn show_opcode(code: u8, about: &AboutOpcode) {
    print!("{code:02x} {}", String::from_utf8_lossy(&about.name));
    about.number.iter().for_each(|n| print!(" number {n}"));
    about.direct_push.iter().for_each(|n| print!(" push {n}"));
    about.verify_form.iter().for_each(|form| print!(" verify {form:02x}"));
    println!();
}

fn show_readings(bytes: &[u8]) {
    let readings = crate_side::read(bytes);
    for (name, reading) in [("read_scriptint", readings.strict), ("read_scriptint_non_minimal", readings.non_minimal)] {
        match reading {
            Ok(n) => println!("{name} {n}"),
            Err(refusal) => println!("{name} {}", refused(refusal)),
        }
    }
    println!("read_scriptbool {}", readings.truth);
}

fn show_session(words: &[String]) -> Result<(), String> {
    let (start, words) = match words.split_first() {
        Some((first, rest)) if first.starts_with("start:") => (hex::read(&first["start:".len()..])?, rest),
        _ => (Vec::new(), words),
    };
    let calls: Vec<Call> = words.iter().map(|word| call(word)).collect::<Result<_, _>>()?;
    let labels = std::iter::once("start").chain(words.iter().map(String::as_str));
    for (label, state) in labels.zip(crate_side::build(&start, &calls)) {
        match state {
            Outcome::Answer(built) => {
                let remembered = or_nothing(built.remembered.map(|code| format!("{code:02x}")));
                println!("{label}: [{}] remembers {remembered}", hex::show(&built.bytes))
            }
            Outcome::Panicked => println!("{label}: panicked"),
        }
    }
    Ok(())
}

fn call(word: &str) -> Result<Call, String> {
    let (name, value) = word.split_once(':').unwrap_or((word, ""));
    Ok(match name {
        "op" => match hex::read(value)?[..] {
            [code] => Call::Opcode(code),
            _ => return Err(format!("not one byte: {word}")),
        },
        "int" => Call::Int(number(value)?),
        "push" => Call::Slice(hex::read(value)?),
        "verify" => Call::Verify,
        "locktime" => Call::LockTime(number(value)?),
        "sequence" => Call::Sequence(number(value)?),
        _ => return Err(format!("no such call: {word}")),
    })
}

fn show_program(version: u8, program: &[u8]) {
    match crate_side::witness(version, program) {
        Ok(about) => {
            println!("script {}", hex::show(&about.script));
            println!("is_p2wpkh {}\nis_p2wsh {}", about.is_p2wpkh, about.is_p2wsh);
            println!("is_p2tr {}\nis_p2a {}", about.is_p2tr, about.is_p2a);
        }
        Err(refusal) => println!("{}", refused(refusal)),
    }
}

fn show_outcome<T: Debug>(name: &str, outcome: &Outcome<T>) {
    match outcome {
        Outcome::Answer(answer) => println!("{name} {answer:?}"),
        Outcome::Panicked => println!("{name} panicked"),
    }
}

fn refused(refusal: Refusal) -> String {
    match refusal {
        Refusal::NonMinimal(place) => format!("{place}: refused, NonMinimal"),
        Refusal::LengthCut(place, missing) => format!("{place}: refused, LengthCut, {missing} missing"),
        Refusal::BodyCut(place, missing) => format!("{place}: refused, BodyCut, {missing} missing"),
        other => format!("refused, {other:?}"),
    }
}

fn or_nothing(text: Option<String>) -> String {
    text.unwrap_or_else(|| "nothing".into())
}

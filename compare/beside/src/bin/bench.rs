//! How long both sides take for the same job, in one process, turn by turn.
//!
//! Each side answers for one script, one number or one builder behind one call that is not inlined. For ours that is the library's own function; the
//! crate's is put into one. A walk to the end, a text into a string and a builder are one such call on both sides, within which the crate's code can be
//! inlined and the library's cannot. A line gives the best round of each side, in processor time of this thread, and their ratio. What ours is lent (tables, buffers, strings) is made once, reused, and not cleared between calls; the crate's vectors and strings are reused too
//! where its interface lets them be. The crate's builder allocates, which is how it is made.

use std::hint::black_box;

use bitcoin::script::Instruction;
use bitcoin::{Opcode, Script};
use brinebutton as bb;
use compare::crate_side;
use compare::lists::{push, Random};

/// Scripts that one job goes through, once each.
type Scripts = [Vec<u8>];

/// One side's answer for each script, added up.
fn each(scripts: &Scripts, mut answer: impl FnMut(&[u8]) -> u64) -> u64 {
    scripts.iter().map(|script| answer(script)).fold(0, u64::wrapping_add)
}

/// What a walk adds up: opcodes and lengths.
fn ours_seen(item: Result<bb::Instruction, bb::Refusal>) -> u64 {
    match item {
        Ok(bb::Instruction::Op(code)) => code.into(),
        Ok(bb::Instruction::PushBytes(body)) => body.len() as u64,
        Err(_) => 1,
    }
}

fn crates_seen<E>(item: Result<Instruction, E>) -> u64 {
    match item {
        Ok(Instruction::Op(code)) => code.to_u8().into(),
        Ok(Instruction::PushBytes(body)) => body.len() as u64,
        Err(_) => 1,
    }
}

#[inline(never)]
fn ours_walk(script: &[u8]) -> u64 {
    bb::Script::from_bytes(script).instructions().map(ours_seen).sum()
}

#[inline(never)]
fn crates_walk(script: &[u8]) -> u64 {
    Script::from_bytes(script).instructions().map(crates_seen).sum()
}

#[inline(never)]
fn ours_walk_minimal(script: &[u8]) -> u64 {
    bb::Script::from_bytes(script).instructions_minimal().map(ours_seen).sum()
}

#[inline(never)]
fn crates_walk_minimal(script: &[u8]) -> u64 {
    Script::from_bytes(script).instructions_minimal().map(crates_seen).sum()
}

#[inline]
fn ours_positions(script: &[u8], table: &mut [u32]) -> u64 {
    bb::Script::from_bytes(script).positions(bb::Mode::Plain, table).unwrap() as u64
}

#[inline(never)]
fn crates_positions(script: &[u8], table: &mut Vec<u32>) -> u64 {
    table.clear();
    table.extend(Script::from_bytes(script).instruction_indices().map(|item| item.unwrap().0 as u32));
    table.len() as u64
}

#[inline]
fn ours_count(script: &[u8]) -> u64 {
    bb::Script::from_bytes(script).count_sigops().unwrap() as u64
}

#[inline(never)]
fn crates_count(script: &[u8]) -> u64 {
    Script::from_bytes(script).count_sigops() as u64
}

#[inline]
fn ours_count_legacy(script: &[u8]) -> u64 {
    bb::Script::from_bytes(script).count_sigops_legacy().unwrap() as u64
}

#[inline(never)]
fn crates_count_legacy(script: &[u8]) -> u64 {
    Script::from_bytes(script).count_sigops_legacy() as u64
}

#[inline]
fn ours_kind(script: &[u8]) -> u64 {
    bb::Script::from_bytes(script).kind().unwrap() as u64
}

#[inline(never)]
fn crates_kind(script: &[u8]) -> u64 {
    let script = Script::from_bytes(script);
    if script.is_p2pkh() {
        0
    } else if script.is_p2sh() {
        1
    } else if script.is_p2wpkh() {
        2
    } else if script.is_p2wsh() {
        3
    } else if script.is_p2tr() {
        4
    } else if crate_side::is_p2a(script) {
        5
    } else if script.is_witness_program() {
        6
    } else if script.is_p2pk() {
        7
    } else if script.is_multisig() {
        8
    } else if script.is_op_return() {
        9
    } else {
        10
    }
}

#[inline]
fn ours_dust(script: &[u8]) -> u64 {
    bb::Script::from_bytes(script).minimal_non_dust().unwrap()
}

#[inline(never)]
fn crates_dust(script: &[u8]) -> u64 {
    Script::from_bytes(script).minimal_non_dust().to_sat()
}

#[inline(never)]
fn ours_text(script: &[u8], text: &mut String) -> u64 {
    text.clear();
    bb::Script::from_bytes(script).fmt_asm(text).unwrap();
    text.len() as u64
}

#[inline]
fn ours_text_lent(script: &[u8], out: &mut [u8]) -> u64 {
    bb::Script::from_bytes(script).write_asm(out).unwrap() as u64
}

#[inline(never)]
fn crates_text(script: &[u8], text: &mut String) -> u64 {
    text.clear();
    Script::from_bytes(script).fmt_asm(text).unwrap();
    text.len() as u64
}

#[inline]
fn ours_redeem(script: &[u8]) -> u64 {
    bb::Script::from_bytes(script).redeem_script().unwrap().map_or(1, |s| s.len() as u64)
}

#[inline(never)]
fn crates_redeem(script: &[u8]) -> u64 {
    Script::from_bytes(script).redeem_script().map_or(1, |s| s.len() as u64)
}

/// A 2-of-3 redeem script with a lock time before it: ten calls.
#[inline(never)]
fn ours_build(keys: &[[u8; 33]], out: &mut [u8]) -> u64 {
    let mut builder = bb::Builder::new(out);
    let built = (|| {
        builder.push_lock_time(500_000)?.push_opcode(0xb1)?.push_opcode(0x75)?.push_int(2)?;
        for key in keys {
            builder.push_slice(key)?;
        }
        builder.push_int(keys.len() as i64)?.push_opcode(0xae)?.push_verify()?;
        Ok::<(), bb::Refusal>(())
    })();
    built.unwrap();
    builder.as_bytes().len() as u64
}

#[inline(never)]
fn crates_build(keys: &[[u8; 33]]) -> u64 {
    let mut builder = bitcoin::script::Builder::new()
        .push_lock_time(bitcoin::absolute::LockTime::from_consensus(500_000))
        .push_opcode(Opcode::from(0xb1))
        .push_opcode(Opcode::from(0x75))
        .push_int(2);
    for key in keys {
        builder = builder.push_slice(key);
    }
    let builder = builder.push_int(keys.len() as i64).push_opcode(Opcode::from(0xae)).push_verify();
    builder.as_bytes().len() as u64
}

#[inline]
fn ours_read(bytes: &[u8]) -> u64 {
    bb::read_scriptint(bytes).map_or(1, |n| n as u64)
}

#[inline(never)]
fn crates_read(bytes: &[u8]) -> u64 {
    bitcoin::script::read_scriptint(bytes).map_or(1, |n| n as u64)
}

#[inline]
fn ours_write(number: i64, out: &mut [u8; 8]) -> u64 {
    bb::write_scriptint(out, number).unwrap() as u64
}

#[inline(never)]
fn crates_write(number: i64, out: &mut [u8; 8]) -> u64 {
    bitcoin::script::write_scriptint(out, number) as u64
}

/// Seconds that the processor has spent on this thread: others on the machine do not count.
fn spent() -> f64 {
    #[repr(C)]
    struct Time {
        seconds: i64,
        nanoseconds: i64,
    }
    extern "C" {
        fn clock_gettime(clock: i32, time: *mut Time) -> i32;
    }
    const THREAD: i32 = 3;
    let mut time = Time { seconds: 0, nanoseconds: 0 };
    // SAFETY: on Linux and x86-64 this is the C library's struct timespec and CLOCK_THREAD_CPUTIME_ID.
    assert_eq!(unsafe { clock_gettime(THREAD, &mut time) }, 0);
    time.seconds as f64 + time.nanoseconds as f64 * 1e-9
}

/// The best round of each side, in seconds for one job, turn by turn.
fn turns(ours: &mut dyn FnMut() -> u64, crates: &mut dyn FnMut() -> u64) -> (f64, f64) {
    let start = spent();
    black_box(ours());
    black_box(crates());
    let jobs = (0.004 / (spent() - start)).clamp(1.0, 100_000.0) as u32;
    let rounds = if jobs == 1 { 15 } else { 60 };
    let timed = |side: &mut dyn FnMut() -> u64| {
        let start = spent();
        for _ in 0..jobs {
            black_box(side());
        }
        (spent() - start) / f64::from(jobs)
    };
    let mut best = (f64::MAX, f64::MAX);
    for _ in 0..rounds {
        best.0 = best.0.min(timed(ours));
        best.1 = best.1.min(timed(crates));
    }
    best
}

fn shown(seconds: f64) -> String {
    match seconds {
        s if s < 1e-6 => format!("{:.1} ns", s * 1e9),
        s if s < 1e-3 => format!("{:.2} us", s * 1e6),
        s => format!("{:.3} ms", s * 1e3),
    }
}

fn line(job: &str, input: &str, ours: &mut dyn FnMut() -> u64, crates: &mut dyn FnMut() -> u64) {
    let (a, b) = turns(ours, crates);
    let mark = if a > b { "  slower" } else { "" };
    println!("{job:<26} {input:<34} {:>12} {:>12} {:>7.2}{mark}", shown(a), shown(b), a / b);
}

/// One-byte opcodes, all sorts of them.
fn opcodes(length: usize) -> Vec<u8> {
    let mut random = Random(1);
    (0..length).map(|_| 0x4f + random.below(0xb1) as u8).collect()
}

/// Pushes of 520 bytes, as many as fit.
fn pushes(length: usize) -> Vec<u8> {
    push(2, 520, &Random(2).bytes(520)).repeat(length / 523)
}

fn main() {
    let mut random = Random(3);
    let mut multisig = |keys: u8| {
        let pushes: Vec<u8> = (0..keys).flat_map(|_| push(0, 33, &random.bytes(33))).collect();
        [&[0x52], &pushes[..], &[0x50 + keys, 0xae]].concat()
    };
    let redeem: Vec<Vec<u8>> = (3..=14).map(&mut multisig).collect();
    let signed: Vec<Vec<u8>> = redeem
        .iter()
        .map(|redeem| {
            let form = if redeem.len() < 256 { 1 } else { 2 };
            [vec![0], push(0, 72, &[7; 72]).repeat(2), push(form, redeem.len(), redeem)].concat()
        })
        .collect();
    let p2pkh: Vec<Vec<u8>> = (0..64).map(|i| [&[0x76, 0xa9, 0x14], &[i; 20][..], &[0x88, 0xac]].concat()).collect();
    let five: Vec<Vec<u8>> = (0..64)
        .map(|i: u8| match i % 5 {
            0 => [&[0x76, 0xa9, 0x14], &[i; 20][..], &[0x88, 0xac]].concat(),
            1 => [&[0xa9, 0x14], &[i; 20][..], &[0x87]].concat(),
            2 => [&[0x00, 0x14], &[i; 20][..]].concat(),
            3 => [&[0x00, 0x20], &[i; 32][..]].concat(),
            _ => [&[0x51, 0x20], &[i; 32][..]].concat(),
        })
        .collect();
    let inputs: [(&str, Vec<Vec<u8>>); 5] = [
        ("4 MiB of one-byte opcodes", vec![opcodes(4_194_304)]),
        ("4 MiB of 520-byte pushes", vec![pushes(4_194_304)]),
        ("12 multisig, 105 to 479 bytes", redeem),
        ("64 templates of 25 bytes", p2pkh),
        ("64 templates of five kinds", five),
    ];
    let mut table = vec![0_u32; 4_194_304];
    let mut crates_table = Vec::with_capacity(4_194_304);
    let (mut text, mut crates_text_buffer) = (String::new(), String::new());
    let mut out = vec![0_u8; 100_000_000];

    println!("{:<26} {:<34} {:>12} {:>12} {:>7}", "job", "input", "ours", "crate", "ratio");
    for (name, scripts) in &inputs {
        line("walk, plain", name, &mut || each(scripts, ours_walk), &mut || each(scripts, crates_walk));
        line("walk, minimal", name, &mut || each(scripts, ours_walk_minimal), &mut || {
            each(scripts, crates_walk_minimal)
        });
        line("positions", name, &mut || each(scripts, |s| ours_positions(s, &mut table)), &mut || {
            each(scripts, |s| crates_positions(s, &mut crates_table))
        });
        line("count_sigops", name, &mut || each(scripts, ours_count), &mut || each(scripts, crates_count));
        line("count_sigops_legacy", name, &mut || each(scripts, ours_count_legacy), &mut || {
            each(scripts, crates_count_legacy)
        });
        line("kind", name, &mut || each(scripts, ours_kind), &mut || each(scripts, crates_kind));
        line("minimal_non_dust", name, &mut || each(scripts, ours_dust), &mut || each(scripts, crates_dust));
        line("text into a string", name, &mut || each(scripts, |s| ours_text(s, &mut text)), &mut || {
            each(scripts, |s| crates_text(s, &mut crates_text_buffer))
        });
        line("text into a lent buffer", name, &mut || each(scripts, |s| ours_text_lent(s, &mut out)), &mut || {
            each(scripts, |s| crates_text(s, &mut crates_text_buffer))
        });
        line("redeem_script", name, &mut || each(scripts, ours_redeem), &mut || each(scripts, crates_redeem));
    }
    line("redeem_script", "12 inputs with a redeem script", &mut || each(&signed, ours_redeem), &mut || {
        each(&signed, crates_redeem)
    });
    let keys = [[2; 33], [3; 33], [2; 33]];
    line(
        "builder, ten calls",
        "a redeem script of 112 bytes",
        &mut || ours_build(black_box(&keys), &mut out[..200]),
        &mut || crates_build(black_box(&keys)),
    );
    let numbers: Vec<i64> = (0..256).map(|i| (Random(i).number() as i64) >> (33 + i % 31)).collect();
    let written: Vec<Vec<u8>> = numbers
        .iter()
        .map(|n| {
            let mut out = [0; 8];
            let count = bitcoin::script::write_scriptint(&mut out, *n);
            out[..count].to_vec()
        })
        .collect();
    line("read_scriptint", "256 numbers", &mut || each(&written, ours_read), &mut || each(&written, crates_read));
    let (mut ours, mut crates) = ([0; 8], [0; 8]);
    line(
        "write_scriptint",
        "256 numbers",
        &mut || numbers.iter().map(|n| ours_write(*n, &mut ours)).sum(),
        &mut || numbers.iter().map(|n| crates_write(*n, &mut crates)).sum(),
    );

    // The same 4 KiB over and over, so that only the length differs: a processor learns the branches of a short random script by heart.
    println!("\nOurs, nanoseconds for a byte of script, by its length:");
    println!("{:<26} {:<20} {:>9} {:>9} {:>9} {:>9}", "job", "input", "4 KiB", "64 KiB", "1 MiB", "4 MiB");
    let lengths = [4_096, 65_536, 1_048_576, 4_194_304];
    let repeated = |length: usize| opcodes(4_096).repeat(length / 4_096);
    for (name, make) in [("one-byte opcodes", repeated as fn(usize) -> Vec<u8>), ("520-byte pushes", pushes)] {
        let scripts = lengths.map(|length| vec![make(length)]);
        let grown = |job: &str, side: &mut dyn FnMut(&Scripts) -> u64| {
            let cost = |scripts: &Vec<Vec<u8>>| {
                let (best, _) = turns(&mut || side(scripts), &mut || 0);
                best * 1e9 / scripts[0].len() as f64
            };
            let costs: Vec<String> = scripts.iter().map(cost).map(|ns| format!("{ns:>9.4}")).collect();
            println!("{job:<26} {name:<20} {}", costs.join(" "));
        };
        grown("walk, plain", &mut |scripts| each(scripts, ours_walk));
        grown("walk, minimal", &mut |scripts| each(scripts, ours_walk_minimal));
        grown("positions", &mut |scripts| each(scripts, |s| ours_positions(s, &mut table)));
        grown("count_sigops", &mut |scripts| each(scripts, ours_count));
        grown("count_sigops_legacy", &mut |scripts| each(scripts, ours_count_legacy));
        grown("text into a lent buffer", &mut |scripts| each(scripts, |s| ours_text_lent(s, &mut out)));
        grown("redeem_script", &mut |scripts| each(scripts, ours_redeem));
    }
}

//! What is recorded about the opcodes: all 256 bytes, and the length bytes of each form of push.

use compare::answers::{Mode, Step};
use compare::crate_side;

use crate::answer::Answer;
use crate::sample::Sample;

/// How many length bytes the crate reads behind an opcode byte, and nothing if it is no push: its walk shows it.
fn length_bytes(code: u8) -> Option<u64> {
    let script = [&[code][..], &[0; 80]].concat();
    match crate_side::walk(&script, Mode::Plain)[0] {
        Step::Push { body_place, .. } => Some(body_place as u64 - 1),
        _ => None,
    }
}

/// The number of a form in the file, by its length bytes.
pub fn form(length_bytes: u64) -> u64 {
    match length_bytes {
        0 => 0,
        1 => 1,
        2 => 2,
        _ => 3,
    }
}

pub fn opcodes(sample: &mut Sample) {
    sample.input(&[]);
    for code in 0..=255 {
        let about = crate_side::about_opcode(code);
        let code = u64::from(code);
        let sort = match (length_bytes(code as u8), about.number) {
            (Some(count), _) => form(count),
            (None, Some(_)) => 4,
            (None, None) => 5,
        };
        let length = about.name.len();
        sample.ask("classify", code, 0, Answer::done().number(sort));
        sample.ask("decode_pushnum", code, 0, Answer::done().nothing_or(about.number.map(u64::from)));
        sample.ask("opcode_to_verify", code, 0, Answer::done().nothing_or(about.verify_form.map(u64::from)));
        sample.ask("name_len", code, 0, Answer::done().number(length as u64));
        sample.ask("name_len_in", code, 0, Answer::done().number(length as u64));
        sample.ask("name_in", code, 0, Answer::done().bytes(&about.name));
        for room in [length - 1, length, length + 3] {
            sample.ask_writing("write_name", code, room, &about.name);
        }
    }
    for code in [75, 76, 77, 78] {
        let count = length_bytes(code).expect("a push");
        sample.ask("length_bytes", form(count), 0, Answer::done().number(count));
    }
}

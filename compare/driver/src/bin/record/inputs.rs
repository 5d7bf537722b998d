//! The scripts that are asked about, apart from the longest. Sessions of the builder start from small ones too.

use compare::lists::{self, Random};

use crate::sample::literal;

/// A few opcodes and short pushes in all four forms, some of them cut: small scripts, so that many fit into the file.
pub fn small(random: &mut Random) -> Vec<u8> {
    let mut script = Vec::new();
    for _ in 0..random.below(6) {
        match random.below(5) {
            0 => script.push(random.byte()),
            1 => script.push(random.one_of(&[0x4f, 0x50, 0x51, 0x60, 0x61, 0x6a, 0xac, 0xad, 0xae, 0xaf, 0xff])),
            _ => {
                let length = random.below(4);
                let there = if random.below(8) == 0 { random.below(length + 1) } else { length };
                let mut body = random.bytes(there);
                if there == 1 {
                    body[0] = random.one_of(&[0, 1, 5, 16, 17, 0x80, 0x81, 0x82]);
                }
                script.extend(lists::push(random.below(4), length, &body));
            }
        }
    }
    if random.below(12) == 0 {
        let cut = random.below(script.len() + 1);
        script.truncate(cut);
    }
    script
}

/// Every script of three opcodes out of a number, a signature opcode of each sort, and another.
fn signatures() -> Vec<Vec<u8>> {
    let codes = [0x52, 0x61, 0xac, 0xae];
    let pairs = codes.iter().flat_map(|a| codes.map(|b| vec![*a, b]));
    pairs.flat_map(|pair| codes.map(|c| [&pair[..], &[c]].concat())).collect()
}

/// Numbers and signature opcodes in a row, and pushes between them.
fn more_signatures(random: &mut Random) -> Vec<u8> {
    let codes = [0x00, 0x4f, 0x51, 0x52, 0x60, 0x61, 0x51, 0x52, 0x60, 0xac, 0xad, 0xae, 0xaf, 0xac, 0xad, 0xae, 0xaf];
    let count = 4 + random.below(4);
    (0..count).map(|_| random.one_of(&codes)).collect()
}

/// Multisig with so many empty pushes, around where the crate's count overflows.
fn many_keys() -> Vec<Vec<u8>> {
    let script = |keys: usize, code: u8| [&[0x51][..], &vec![0; keys], &[code, 0xae]].concat();
    let counts = [254, 255, 256, 257, 258];
    counts.iter().flat_map(|keys| [script(*keys, 0x51), script(*keys, 0x61)]).collect()
}

pub fn scripts(random: &mut Random) -> Vec<Vec<u8>> {
    let mut all = vec![vec![]];
    all.extend((0..=255).map(|code| vec![code]));
    for body in (0..=18).chain([0x7f, 0x80, 0x81, 0x82, 0xff]) {
        all.push(vec![1, body]);
    }
    for stated in [0, 1, 5, 74, 75, 76, 77, 255] {
        all.extend([vec![0x4c, stated], vec![0x4d, stated, 0], vec![0x4d, stated], vec![0x4d, stated, 1]]);
        all.extend([vec![0x4e, stated, 0, 0, 0], vec![0x4e, stated, 0, 1, 0], vec![0x4e, stated, 0, 0]]);
    }
    for template in lists::templates() {
        let neighbours = lists::neighbours(&template);
        all.push(template);
        all.extend((0..12).map(|_| neighbours[random.below(neighbours.len())].clone()));
    }
    all.extend(lists::around_lengths().into_iter().filter(|script| literal(script) < 300));
    all.extend(many_keys());
    for _ in 0..44 {
        let script = lists::mixture(random);
        all.push(lists::damaged(&script, random));
        all.push(script);
    }
    all.extend((0..60).map(|_| lists::like_multisig(random)).filter(|script| script.len() < 300).collect::<Vec<_>>());
    all.extend(signatures());
    all.extend((0..100).map(|_| more_signatures(random)));
    all.extend((0..470).map(|_| small(random)));
    all
}

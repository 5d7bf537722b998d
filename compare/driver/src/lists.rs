//! Scripts to ask about, from the smallest to the longest, and builder sessions.

use crate::answers::Call;

/// A stream of numbers that a seed fixes (splitmix64).
pub struct Random(pub u64);

impl Random {
    pub fn number(&mut self) -> u64 {
        self.0 = self.0.wrapping_add(0x9e37_79b9_7f4a_7c15);
        let mixed = (self.0 ^ (self.0 >> 30)).wrapping_mul(0xbf58_476d_1ce4_e5b9);
        let mixed = (mixed ^ (mixed >> 27)).wrapping_mul(0x94d0_49bb_1331_11eb);
        mixed ^ (mixed >> 31)
    }

    pub fn below(&mut self, bound: usize) -> usize {
        (self.number() % bound as u64) as usize
    }

    pub fn byte(&mut self) -> u8 {
        self.number() as u8
    }

    pub fn bytes(&mut self, count: usize) -> Vec<u8> {
        (0..count).map(|_| self.byte()).collect()
    }

    pub fn one_of<T: Copy>(&mut self, choices: &[T]) -> T {
        choices[self.below(choices.len())]
    }
}

/// Every script of up to two bytes.
pub fn up_to_two_bytes() -> impl Iterator<Item = Vec<u8>> {
    let one = (0..=255).map(|a| vec![a]);
    let two = (0..=u16::MAX).map(|n| n.to_be_bytes().to_vec());
    std::iter::once(Vec::new()).chain(one).chain(two)
}

/// One script of each template, with small and large witness programs and multisig of several sizes.
pub fn templates() -> Vec<Vec<u8>> {
    let around = |front: &[u8], count: usize, back: &[u8]| [front, &vec![0xaa; count][..], back].concat();
    let mut scripts = vec![
        around(&[0x76, 0xa9, 0x14], 20, &[0x88, 0xac]),
        around(&[0xa9, 0x14], 20, &[0x87]),
        around(&[0x41], 65, &[0xac]),
        around(&[0x21], 33, &[0xac]),
        around(&[0x51, 0x20], 32, &[]),
        vec![0x51, 0x02, 0x4e, 0x73],
        around(&[0x60, 0x28], 40, &[]),
        around(&[0x6a, 0x04], 4, &[]),
    ];
    scripts.extend([2, 20, 32, 40].map(|count| around(&[0, count], count.into(), &[])));
    scripts.extend([(1, 33), (2, 33), (3, 33), (16, 1)].map(|(keys, length)| {
        let pushes = around(&[length], length.into(), &[]).repeat(keys.into());
        [&[0x51], &pushes[..], &[0x50 + keys, 0xae]].concat()
    }));
    scripts
}

/// What differs from a script in one byte's value, or by one byte less or more.
pub fn neighbours(script: &[u8]) -> Vec<Vec<u8>> {
    let mut found = Vec::new();
    for at in 0..script.len() {
        for other in 0..=255 {
            let mut changed = script.to_vec();
            changed[at] = other;
            found.push(changed);
        }
        found.push([&script[..at], &script[at + 1..]].concat());
    }
    for at in 0..=script.len() {
        for more in [0x00, 0x51, 0x6a, 0xac, 0xae] {
            found.push([&script[..at], &[more], &script[at..]].concat());
        }
    }
    found
}

/// A push that states a length in one of the four forms, with as many body bytes as are given.
pub fn push(form: usize, stated: usize, body: &[u8]) -> Vec<u8> {
    let length = (stated as u32).to_le_bytes();
    match form {
        0 => [&length[..1], body].concat(),
        1 => [&[0x4c], &length[..1], body].concat(),
        2 => [&[0x4d], &length[..2], body].concat(),
        _ => [&[0x4e], &length[..4], body].concat(),
    }
}

/// Pushes in every form that can state it, around each length where a form or a count of bytes changes: whole, cut
/// by one byte, and followed by an opcode; and as many plain opcodes.
pub fn around_lengths() -> Vec<Vec<u8>> {
    let mut scripts = Vec::new();
    for length in [0, 1, 2, 74, 75, 76, 77, 252, 253, 254, 255, 256, 257, 65_534, 65_535, 65_536, 65_537] {
        scripts.push(vec![0x61; length]);
        scripts.push(vec![0x51; length]);
        for (form, largest) in [75, 255, 65_535, usize::MAX].into_iter().enumerate() {
            if length > largest {
                continue;
            }
            let body = vec![5; length];
            scripts.push(push(form, length, &body));
            scripts.push([push(form, length, &body), vec![0xac]].concat());
            scripts.push(push(form, length, &body[..length.saturating_sub(1)]));
        }
    }
    scripts
}

/// Pushes that are cut at each of their bytes, the length bytes too, behind an opcode: in every form one that states a byte more than is there, and one that
/// states the most that its form can.
pub fn cut_pushes() -> Vec<Vec<u8>> {
    let mut scripts = Vec::new();
    for (form, largest) in [75, 255, 65_535, u32::MAX as usize].into_iter().enumerate() {
        for stated in [3, largest] {
            let script = [vec![0x51], push(form, stated, &[7; 2])].concat();
            scripts.extend((2..=script.len()).map(|end| script[..end].to_vec()));
        }
    }
    scripts
}

/// Opcodes that some entry treats apart.
const NOTABLE: [u8; 26] = [
    0x00, 0x4c, 0x4d, 0x4e, 0x4f, 0x50, 0x51, 0x52, 0x5f, 0x60, 0x61, 0x69, 0x6a, 0x87, 0x88, 0x9c, 0x9d, 0xac, 0xad,
    0xae, 0xaf, 0xb1, 0xb2, 0xba, 0xbb, 0xff,
];

/// A mixture of opcodes and of pushes in all four forms, whole and, rarely, cut.
pub fn mixture(random: &mut Random) -> Vec<u8> {
    let mut script = Vec::new();
    for _ in 0..random.below(12) {
        match random.below(8) {
            0 | 1 => script.push(random.byte()),
            2 | 3 => script.push(random.one_of(&NOTABLE)),
            _ => {
                let form = random.below(4);
                let length = match random.below(4) {
                    0 => random.below(3),
                    1 => random.one_of(&[20, 32, 33, 65]),
                    2 => random.one_of(&[74, 75, 76, 255, 256]),
                    _ => random.below(76),
                };
                let length = if form == 0 {
                    length.min(75)
                } else if form == 1 {
                    length.min(255)
                } else {
                    length
                };
                let there = if random.below(10) == 0 { random.below(length + 1) } else { length };
                let mut body = random.bytes(there);
                if there == 1 && random.below(2) == 0 {
                    body[0] = random.one_of(&[0, 1, 16, 17, 0x80, 0x81]);
                }
                script.extend(push(form, length, &body));
            }
        }
    }
    script
}

/// Pushes between number opcodes: multisig, or nearly.
pub fn like_multisig(random: &mut Random) -> Vec<u8> {
    let keys = if random.below(8) == 0 { 250 + random.below(12) } else { random.below(18) };
    let mut script = vec![0x50 + random.below(18) as u8];
    for _ in 0..keys {
        let length = random.one_of(&[0, 1, 2, 33]);
        let body = random.bytes(length);
        script.extend(push(random.one_of(&[0, 0, 0, 1]), length, &body));
    }
    script.push(match random.below(4) {
        0 => random.byte(),
        _ => 0x50_u8.wrapping_add(keys as u8),
    });
    script.push(random.one_of(&[0xae, 0xae, 0xae, 0xaf]));
    script
}

/// A copy with one byte changed, or cut at some place.
pub fn damaged(script: &[u8], random: &mut Random) -> Vec<u8> {
    let mut copy = script.to_vec();
    if copy.is_empty() {
        return copy;
    }
    let at = random.below(copy.len());
    match random.below(2) {
        0 => copy[at] = random.byte(),
        _ => copy.truncate(at),
    }
    copy
}

/// Builder calls, at most nine, that fold and remember often.
pub fn session(random: &mut Random) -> Vec<Call> {
    let count = random.below(10);
    (0..count)
        .map(|_| match random.below(9) {
            0 | 1 => Call::Opcode(random.one_of(&NOTABLE)),
            2 => Call::Opcode(random.byte()),
            3 => Call::Int(random.below(40) as i64 - 12),
            4 => {
                let kept = random.below(64);
                Call::Int((random.number() as i64) >> kept)
            }
            5 => {
                let length = random.one_of(&[0, 1, 20, 75, 76, 255, 256]);
                Call::Slice(random.bytes(length))
            }
            6 => Call::LockTime(random.number() as u32 >> random.below(32)),
            7 => Call::Sequence(random.number() as u32 >> random.below(32)),
            _ => Call::Verify,
        })
        .collect()
}

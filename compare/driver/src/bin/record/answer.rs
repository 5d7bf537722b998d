//! An answer as the file has it: numbers, and bytes.

use compare::answers::Refusal;

/// What a lent byte, and an entry of a lent table, holds before the call.
const PATTERN: u8 = 0xee;
pub const TABLE_PATTERN: u64 = 0xee;

/// An answer as bytes: a refusal's number or 0, and then the values.
#[derive(Clone, Default)]
pub struct Answer(pub Vec<u8>);

impl Answer {
    pub fn done() -> Answer {
        Answer::default().number(0)
    }

    pub fn refused(refusal: Refusal) -> Answer {
        let answer = Answer::default().number(refusal.number().into());
        refusal.values().into_iter().fold(answer, Answer::number)
    }

    /// A refusal that the crate does not have.
    pub fn refused_with(number: u64) -> Answer {
        Answer::default().number(number)
    }

    pub fn no_room(needed: usize) -> Answer {
        Answer::refused_with(7).number(needed as u64)
    }

    /// A number as the file has it.
    pub fn number(mut self, n: u64) -> Answer {
        number(&mut self.0, n);
        self
    }

    pub fn bytes(mut self, bytes: &[u8]) -> Answer {
        self.0.extend(bytes);
        self
    }

    pub fn nothing_or(self, value: Option<u64>) -> Answer {
        match value {
            None => self.number(0),
            Some(n) => self.number(1).number(n),
        }
    }

    /// A lent buffer after the call.
    pub fn lent(self, written: &[u8], room: usize) -> Answer {
        let rest = vec![PATTERN; room - written.len()];
        self.bytes(written).bytes(&rest)
    }
}

/// One byte below 254; 254 and two bytes, low byte first; or 255 and eight.
pub fn number(out: &mut Vec<u8>, n: u64) {
    if n < 254 {
        out.push(n as u8);
    } else if n < 65_536 {
        out.push(254);
        out.extend(&n.to_le_bytes()[..2]);
    } else {
        out.push(255);
        out.extend(n.to_le_bytes());
    }
}

pub fn writing(room: usize, written: &[u8]) -> Answer {
    if room < written.len() {
        Answer::no_room(written.len()).lent(&[], room)
    } else {
        Answer::done().number(written.len() as u64).lent(written, room)
    }
}

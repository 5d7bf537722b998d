//! What both sides are asked about, and how an input on which they differ is made smaller.

use compare::answers::Call;

use crate::check::Run;
use crate::entries::Entry;

#[derive(Clone, Debug)]
pub enum Input {
    /// What asks about nothing: the cursor at the front, the empty builder.
    Front,
    Opcode(u8),
    Number(i64),
    /// Bytes to be read as a number or a truth value.
    Bytes(Vec<u8>),
    Script(Vec<u8>),
    Program(u8, Vec<u8>),
    Session(Session),
    State(State),
}

/// Builder calls, one after the other, over a buffer that holds a script at its front.
#[derive(Clone, Debug)]
pub struct Session {
    pub room: usize,
    pub start: Vec<u8>,
    pub calls: Vec<Call>,
}

/// One builder call in a state that may be bad.
#[derive(Clone, Debug)]
pub struct State {
    pub buffer: Vec<u8>,
    pub length: usize,
    pub remembered: u32,
    pub call: Call,
}

/// Bytes as hex, `aa*N` for a run of one byte.
fn shown(bytes: &[u8]) -> String {
    let mut words = Vec::new();
    let mut rest = bytes;
    while let Some(first) = rest.first() {
        let run = rest.iter().take_while(|byte| *byte == first).count();
        match run {
            1..=3 => words.extend((0..run).map(|_| format!("{first:02x}"))),
            _ => words.push(format!("{first:02x}*{run}")),
        }
        rest = &rest[run..];
        if words.len() > 400 {
            words.push(format!(".. and {} bytes more", rest.len()));
            break;
        }
    }
    format!("[{}]", words.join(" "))
}

fn shown_call(call: &Call) -> String {
    match call {
        Call::Slice(body) => format!("Slice({})", shown(body)),
        Call::Opcode(code) => format!("Opcode({code:02x})"),
        other => format!("{other:?}"),
    }
}

impl std::fmt::Display for Input {
    fn fmt(&self, f: &mut std::fmt::Formatter) -> std::fmt::Result {
        match self {
            Input::Front => f.write_str("nothing"),
            Input::Opcode(code) => write!(f, "opcode {code:02x}"),
            Input::Number(n) => write!(f, "number {n}"),
            Input::Bytes(bytes) => write!(f, "bytes {}", shown(bytes)),
            Input::Script(bytes) => write!(f, "script {} ({} bytes)", shown(bytes), bytes.len()),
            Input::Program(version, program) => write!(f, "witness version {version}, program {}", shown(program)),
            Input::Session(session) => {
                let calls: Vec<String> = session.calls.iter().map(shown_call).collect();
                write!(f, "builder over {} bytes, start {}, {}", session.room, shown(&session.start), calls.join(", "))
            }
            Input::State(state) => write!(
                f,
                "builder over {}, length {}, remembers {}, {}",
                shown(&state.buffer),
                state.length,
                state.remembered,
                shown_call(&state.call)
            ),
        }
    }
}

/// The same bytes with some left out: halves first, then less and less.
fn fewer(bytes: &[u8]) -> Vec<Vec<u8>> {
    let mut found = Vec::new();
    let mut size = bytes.len().div_ceil(2);
    while size > 0 && found.len() < 600 {
        for at in (0..bytes.len()).step_by(size).take(200) {
            found.push([&bytes[..at], &bytes[(at + size).min(bytes.len())..]].concat());
        }
        size /= 2;
    }
    found
}

/// Inputs that are smaller in one respect.
fn smaller(input: &Input) -> Vec<Input> {
    match input {
        Input::Front | Input::Opcode(_) => Vec::new(),
        Input::Number(n) => {
            [n / 256, n / 2, n - n.signum()].into_iter().filter(|m| m != n).map(Input::Number).collect()
        }
        Input::Bytes(bytes) => fewer(bytes).into_iter().map(Input::Bytes).collect(),
        Input::Script(bytes) => fewer(bytes).into_iter().map(Input::Script).collect(),
        Input::Program(version, program) => {
            fewer(program).into_iter().map(|program| Input::Program(*version, program)).collect()
        }
        Input::Session(session) => {
            let mut found = Vec::new();
            for at in 0..session.calls.len() {
                let mut calls = session.calls.clone();
                calls.remove(at);
                found.push(Session { calls, ..session.clone() });
            }
            found.extend(fewer(&session.start).into_iter().map(|start| Session { start, ..session.clone() }));
            for at in 0..session.calls.len() {
                if let Call::Slice(body) = &session.calls[at] {
                    for body in fewer(body).into_iter().take(20) {
                        let mut calls = session.calls.clone();
                        calls[at] = Call::Slice(body);
                        found.push(Session { calls, ..session.clone() });
                    }
                }
            }
            found.extend([session.room / 2, session.room.saturating_sub(1)].into_iter().filter_map(|room| {
                (room < session.room && room >= session.start.len()).then(|| Session { room, ..session.clone() })
            }));
            found.into_iter().map(Input::Session).collect()
        }
        Input::State(state) => {
            fewer(&state.buffer).into_iter().map(|buffer| Input::State(State { buffer, ..state.clone() })).collect()
        }
    }
}

/// The smallest input found on which this entry still differs, in half a minute at most, and what it then answers.
pub fn shrunk(input: Input, entry: Entry) -> (Input, String) {
    let started = std::time::Instant::now();
    let differs = |input: &Input| {
        let mut run = Run::default();
        run.check(input);
        run.ours.failures.into_iter().find(|failure| failure.entry == entry).map(|failure| failure.text)
    };
    let Some(mut text) = differs(&input) else {
        return (input, "not seen again when asked alone".into());
    };
    let mut best = input;
    'again: loop {
        for candidate in smaller(&best) {
            if started.elapsed().as_secs() > 30 {
                break 'again;
            }
            if let Some(found) = differs(&candidate) {
                (best, text) = (candidate, found);
                continue 'again;
            }
        }
        break;
    }
    (best, text)
}

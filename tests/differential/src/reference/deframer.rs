//! "Cutting": a call of the cutter, the end verdict, and the uncut reading of a whole stream.

use super::header::{first, in_range, judge, SIZE};

/// "The state is a count of held bytes and a refusal number (0 for none)." "Fresh means 0 and 0."
#[derive(Clone, Copy, Debug, Default, PartialEq, Eq)]
pub struct State {
    pub held: usize,
    pub error: u32,
}

/// "The answer is one of three: a whole frame with its size, more is needed, or a refusal"
#[derive(Clone, Copy, Debug, PartialEq, Eq)]
pub enum Answer {
    Frame(usize),
    More,
    Refused(u32),
}

/// "with it come the next state and the count taken"
#[derive(Clone, Copy, Debug, PartialEq, Eq)]
pub struct Step {
    pub answer: Answer,
    pub next: State,
    pub taken: usize,
}

/// "A state is known if ..", by the judge at the ceiling of this call: the state has none.
fn known(state: State, buffer: &[u8], ceiling: u32) -> bool {
    let State { held, error } = state;
    let judged = judge(&buffer[..SIZE], ceiling);
    match error {
        // "it holds under 16 bytes with number 0; or holds 16 or more with number 0, its first 16 judge good and their total
        // exceeds the count"
        0 => held < SIZE || (judged == 0 && first(buffer).total > held),
        // "or holds exactly 16 that judge to its number, from 3 to 8"; but "a state that holds 8 is not known"
        3..=7 => held == SIZE && judged == error,
        _ => false,
    }
}

/// 41, "ceiling outside the range, before all others", then 1, where "A buffer need only be as long as the ceiling", then 2, "state
/// not known"; 0 for none.
fn misuse(state: State, buffer: &[u8], ceiling: u32) -> u32 {
    if !in_range(ceiling) {
        41
    } else if buffer.len() < ceiling as usize {
        1
    } else if !known(state, buffer, ceiling) {
        2
    } else {
        0
    }
}

/// A call of the cutter. "Cutter 1, 2, a held refusal, then 3 to 8 rising", where "8 is no longer given".
pub fn deframe(state: State, buffer: &mut [u8], ceiling: u32, piece: &[u8]) -> Step {
    let refused = |error| Step { answer: Answer::Refused(error), next: state, taken: 0 };
    let misuse = misuse(state, buffer, ceiling);
    if misuse != 0 {
        // "1 and 2 return the state as given and take nothing."; 41 "with the state as given and nothing taken"
        return refused(misuse);
    }
    if state.error != 0 {
        return refused(state.error); // "later calls repeat the number and take nothing"
    }
    // "It takes bytes from the piece to the buffer, behind those held, until a frame is whole, a header is refused or the
    // piece ends."
    for (index, byte) in piece.iter().enumerate() {
        let held = state.held + index + 1;
        let taken = index + 1;
        buffer[held - 1] = *byte;
        // "The header is judged when its 16th byte arrives, never sooner."
        if held == SIZE {
            let error = judge(&buffer[..SIZE], ceiling);
            if error != 0 {
                return Step { answer: Answer::Refused(error), next: State { held, error }, taken };
            }
        }
        // "After a whole frame nothing is held"
        if held >= SIZE && held == first(buffer).total {
            return Step { answer: Answer::Frame(held), next: State::default(), taken };
        }
    }
    Step { answer: Answer::More, next: State { held: state.held + piece.len(), error: 0 }, taken: piece.len() }
}

/// How a stream ends.
#[derive(Clone, Copy, Debug, PartialEq, Eq)]
pub enum End {
    Clean,
    Short(usize),
    Refused(u32),
}

/// "The end verdict, asked with state and buffer, is clean (nothing held), short with the count held, or the refusal."
pub fn finish(state: State, buffer: &[u8], ceiling: u32) -> End {
    let misuse = misuse(state, buffer, ceiling);
    if misuse != 0 {
        End::Refused(misuse)
    } else if state.error != 0 {
        End::Refused(state.error)
    } else {
        clean_or_short(state.held)
    }
}

fn clean_or_short(count: usize) -> End {
    if count == 0 {
        End::Clean
    } else {
        End::Short(count)
    }
}

/// The uncut reading of a whole stream: its frames and its end. Each frame is read by `reader::read`. "one more premise, the same
/// ceiling within that range throughout, for the uncut reading too"
pub fn uncut(stream: &[u8], ceiling: u32) -> (Vec<&[u8]>, End) {
    assert!(in_range(ceiling));
    let mut frames = Vec::new();
    let mut rest = stream; // "It starts at the first byte."
    loop {
        // "With under 16 bytes left it stops: clean if none, else short with their number."
        if rest.len() < SIZE {
            return (frames, clean_or_short(rest.len()));
        }
        // "If the judge refuses the next 16, it stops with that number, whatever follows."
        let error = judge(&rest[..SIZE], ceiling);
        if error != 0 {
            return (frames, End::Refused(error));
        }
        // "If their total exceeds what is left, it stops: short with the number left."
        let total = first(rest).total;
        if total > rest.len() {
            return (frames, End::Short(rest.len()));
        }
        // "Otherwise the next bytes, as many as the total, are a frame .. and it goes on behind them."
        let (frame, behind) = rest.split_at(total);
        frames.push(frame);
        rest = behind;
    }
}

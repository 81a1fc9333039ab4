//! Opening, by the reference: its questions, and the words of the state that it leaves.

use crate::pair::{closes_to_itself, closure, Pair};
use crate::rounds::opening;
use crate::states::State;
use crate::words::Kind;

/// A state without a tick, or the number of the refusal. The last question that is asked of the pair is whether it has a closure, or
/// whether it is its own. Without ceilings a monitor closes nothing, and no figure stands in the place of one that has no effect.
pub fn opened(kind: Kind, pair: &Pair) -> Result<State, u32> {
    let number = opening(pair, None);
    if number != 0 {
        return Err(number);
    }
    let none = Pair::filled(pair.horizon(), 0, 0);
    let given = match pair.unlimited() {
        true => Pair::marked(&none.upper, &pair.lower, 1),
        false => pair.clone(),
    };
    match kind {
        Kind::Generator if !closes_to_itself(pair) => Err(15),
        Kind::Generator => Ok(State::fresh(given, none)),
        Kind::Monitor if pair.unlimited() => Ok(State::fresh(given, none)),
        Kind::Monitor => closure(pair).map(|closed| State::fresh(given, closed)).ok_or(5),
    }
}

/// Opening as a whole: how many words there are is asked last.
pub fn open_into(kind: Kind, pair: &Pair, state: &mut [u32]) -> u32 {
    match opened(kind, pair) {
        Err(number) => number,
        Ok(_) if state.len() != kind.words() => 12,
        Ok(opened) => {
            state.copy_from_slice(&opened.words()[..kind.words()]);
            0
        }
    }
}

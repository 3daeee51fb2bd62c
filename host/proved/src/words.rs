//! States, steps and answers as the words that the library takes and gives.

use crate::number::Number;
use crate::state::{Buffer, Event, State, Step};

/// Words of a state: the clock, then type, eight slot values, delay and error flag of each buffer.
pub const STATE: usize = 89;
/// Words of a buffer.
pub const BUFFER: usize = 11;
/// Words of a step that was made: the clock after it, its kind, its rule or ms.
pub const EVENT: usize = 3;

/// The words of a state.
pub fn words_of(state: &State) -> [u32; STATE] {
    let mut words = [0; STATE];
    words[0] = state.clock;
    for (part, buffer) in words[1..].chunks_exact_mut(BUFFER).zip(&state.buffers) {
        part[0] = u32::from(buffer.isa);
        for (word, &value) in part[1..9].iter_mut().zip(&buffer.slots) {
            *word = u32::from(value);
        }
        part[9] = u32::from(buffer.delay);
        part[10] = u32::from(buffer.error);
    }
    words
}

/// The state of its words. All but the clock have 16 bits, and a flag is 0 or 1: the library was handed such words, and leaves such.
pub fn state_of(words: &[u32; STATE]) -> State {
    let mut state = State { clock: words[0], ..State::default() };
    for (buffer, part) in state.buffers.iter_mut().zip(words[1..].chunks_exact(BUFFER)) {
        let slots = std::array::from_fn(|slot| part[1 + slot] as u16);
        *buffer = Buffer { isa: part[0] as u16, slots, delay: part[9] as u16, error: part[10] == 1 };
    }
    state
}

/// The number in the low 16 bits of an answer with the position in its upper 32, and the count in the 16 between them.
pub fn number_and_count(answer: u64) -> (Number, u16) {
    (Number::of(answer as u16, (answer >> 32) as u32), (answer >> 16) as u16)
}

/// The first `made` steps of their words; rules and ms have 16 bits.
pub fn events(words: &[u32], made: u16) -> Vec<Event> {
    let event = |part: &[u32]| {
        let value = part[2] as u16;
        let step = match part[1] {
            0 => Step::Fire { rule: value },
            1 => Step::Wait { ms: value },
            other => unreachable!("the library noted a step of kind {other}, which is neither 0 nor 1"),
        };
        Event { clock: part[0], step }
    };
    words.chunks_exact(EVENT).take(usize::from(made)).map(event).collect()
}

#[cfg(test)]
mod tests {
    use super::{events, number_and_count, state_of, words_of, STATE};
    use crate::number::{Number, Refusal};
    use crate::state::{Buffer, Event, State, Step};

    #[test]
    fn a_state_and_its_words_stand_for_each_other() {
        let mut state = State { clock: 0xfedc_ba98, ..State::default() };
        state.buffers[0] = Buffer { isa: 1, slots: [2, 3, 4, 5, 6, 7, 8, 9], delay: 10, error: false };
        state.buffers[7] = Buffer { delay: 65_535, error: true, ..Buffer::default() };
        let mut words = [0; STATE];
        words[..11].copy_from_slice(&[0xfedc_ba98, 1, 2, 3, 4, 5, 6, 7, 8, 9, 10]);
        words[87..].copy_from_slice(&[65_535, 1]);
        assert_eq!((words_of(&state), state_of(&words)), (words, state));
    }

    #[test]
    fn an_answer_is_number_count_and_position() {
        let refused = Number::Refused(Refusal::Variable { at: 0x0008_0000 });
        assert_eq!(number_and_count(0x0008_0000_fedc_000c), (refused, 0xfedc));
    }

    #[test]
    fn each_kind_of_step_is_told() {
        let told =
            [Event { clock: 50, step: Step::Fire { rule: 7 } }, Event { clock: 60, step: Step::Wait { ms: 10 } }];
        assert_eq!(events(&[50, 0, 7, 60, 1, 10, 0, 0, 0], 2), told);
    }

    #[test]
    #[should_panic(expected = "the library noted a step of kind 2, which is neither 0 nor 1")]
    fn a_kind_that_is_not_known_is_named() {
        events(&[50, 2, 7], 1);
    }
}

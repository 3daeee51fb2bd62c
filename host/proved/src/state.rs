//! States and steps, as values.

/// A buffer: a chunk, the ms until it is visible, and whether the last action on it was a request that found no fact.
#[derive(Clone, Copy, PartialEq, Eq, Hash, Debug, Default)]
pub struct Buffer {
    /// Type of the chunk, 0 for nil.
    pub isa: u16,
    /// Slot values, 0 past the type's slots.
    pub slots: [u16; 8],
    /// 0 if the chunk is visible, otherwise the ms until it is.
    pub delay: u16,
    /// The error flag: set when a request finds no fact, cleared by any other action on the buffer. A state is refused
    /// ([`crate::Refusal::State`]) that has it beside a chunk, or in a buffer past the image's count.
    pub error: bool,
}

/// Eight buffers and the clock. [`State::default`] holds nil in each buffer, at clock 0.
#[derive(Clone, Copy, PartialEq, Eq, Hash, Debug, Default)]
pub struct State {
    /// The buffers; those past the image's count hold nil.
    pub buffers: [Buffer; 8],
    /// The clock in ms.
    pub clock: u32,
}

/// What a step did.
#[derive(Clone, Copy, PartialEq, Eq, Hash, Debug)]
pub enum Step {
    /// A rule fired.
    Fire {
        /// Its number.
        rule: u16,
    },
    /// Nothing matched, and a chunk was pending.
    Wait {
        /// The ms waited.
        ms: u16,
    },
}

/// A step that was made.
#[derive(Clone, Copy, PartialEq, Eq, Hash, Debug)]
pub struct Event {
    /// The clock after the step, in ms.
    pub clock: u32,
    /// What the step did.
    pub step: Step,
}

impl Buffer {
    /// Whether rules can see the chunk.
    pub fn is_visible(&self) -> bool {
        self.delay == 0
    }

    /// Whether rules can see that a request found no fact: the error flag is set, and nothing is on its way.
    pub fn has_failed(&self) -> bool {
        self.is_visible() && self.error
    }
}

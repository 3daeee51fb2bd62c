//! The words with which a model begins in ACT-R, and what is written here instead.

use crate::naming::ISA;

/// Words of ACT-R in small letters, each with its answer.
const ANSWERS: [(&str, &str); 18] = [
    ("chunk-type", "write 'type NAME SLOT ..'"),
    ("add-dm", "write 'fact TYPE SLOT VALUE ..', a line for each chunk, which has no name of its own"),
    ("p", "write 'rule NAME', and below it the tests, '==>' and the actions, each on its line; a variable is '?name'"),
    ("sgp", "'failure latency MS' stands on its line, a fact's activation and latency on the fact's"),
    (
        "sdp",
        "a fact's activation and latency stand on its line: 'fact TYPE SLOT VALUE .. activation NUMBER latency MS'",
    ),
    ("set-base-levels", "an activation stands on its fact's line: 'fact TYPE SLOT VALUE .. activation NUMBER'"),
    ("spp", "a utility stands on its rule's line: 'rule NAME utility NUMBER'"),
    ("goal-focus", "the chunk that a buffer opens with stands on its line: 'buffer goal TYPE SLOT VALUE ..'"),
    ("set-buffer-chunk", "the chunk that a buffer opens with stands on its line: 'buffer NAME TYPE SLOT VALUE ..'"),
    ("define-chunks", "a chunk stands where it is used: on the line of a fact, or of the buffer that opens with it"),
    ("define-model", "leave it out: a file is a model"),
    ("clear-all", "leave it out: each run begins afresh"),
    ("run", "leave it out: 'make run MODEL=FILE' or 'make explain MODEL=FILE' runs a model"),
    ("!output!", "a rule prints nothing; leave it out, the trace tells each firing"),
    ("!eval!", "a rule computes nothing; give a fact for each result that is needed"),
    ("!bind!", "a rule computes nothing; give a fact for each result that is needed"),
    ("!stop!", "leave it out: a run ends where no rule matches and nothing is on its way; '-goal>' empties the goal"),
    ("isa", "the type stands behind the buffer, on its line: '=goal> TYPE SLOT TERM ..'"),
];

/// What to write instead of a word of ACT-R, with or without its bracket.
pub fn answer(word: &str) -> Option<&'static str> {
    let bare = word.trim_start_matches('(').trim_end_matches(')').to_ascii_lowercase();
    ANSWERS.iter().find(|(known, _)| *known == bare).map(|(_, answer)| *answer)
}

/// Whether a word of ACT-R stands within rules.
pub fn is_within_rules(word: &str) -> bool {
    word.starts_with('!') || word.eq_ignore_ascii_case(ISA)
}

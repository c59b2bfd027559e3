//! Decoding score tables, and the score of a path over them.

use crate::{Refusal, calls};

/// What decoding answers beside the path.
#[derive(Debug, Clone, Copy, PartialEq)]
pub struct Decoded {
    pub sum: f64,
    pub lead: Option<f64>,
}

/// Writes the path to the first `words` places of `path`. Transitions lie by previous label, states word by word.
pub fn viterbi_decode(
    labels: u32,
    words: u32,
    transitions: &[f64],
    states: &[f64],
    path: &mut [u32],
) -> Result<Decoded, Refusal> {
    decoded(unsafe {
        calls::bodkinbloom_viterbi_decode(
            labels,
            words,
            transitions.as_ptr(),
            transitions.len(),
            states.as_ptr(),
            states.len(),
            path.as_mut_ptr(),
            path.len(),
        )
    })
}

/// The score of the first `length` labels of `path`.
pub fn sequence_score(
    labels: u32,
    words: u32,
    transitions: &[f64],
    states: &[f64],
    path: &[u32],
    length: u32,
) -> Result<f64, Refusal> {
    scored(unsafe {
        calls::bodkinbloom_sequence_score(
            labels,
            words,
            transitions.as_ptr(),
            transitions.len(),
            states.as_ptr(),
            states.len(),
            path.as_ptr(),
            path.len(),
            length,
        )
    })
}

/// The answer that a struct of numbers stands for. What a case leaves unsaid has to be zero.
pub fn decoded(answer: calls::Decoded) -> Result<Decoded, Refusal> {
    let calls::Decoded { number, has_lead, place, sum, lead } = answer;
    assert!(has_lead <= 1, "{answer:?}");
    assert!(has_lead == 1 || lead.to_bits() == 0, "{answer:?}");
    if number == 0 {
        assert_eq!(place, 0, "{answer:?}");
        return Ok(Decoded { sum, lead: (has_lead == 1).then_some(lead) });
    }
    assert!(has_lead == 0 && sum.to_bits() == 0, "{answer:?}");
    Err((number, place))
}

/// The same of a path's score.
pub fn scored(answer: calls::Scored) -> Result<f64, Refusal> {
    let calls::Scored { number, place, score } = answer;
    if number == 0 {
        assert_eq!(place, 0, "{answer:?}");
        return Ok(score);
    }
    assert_eq!(score.to_bits(), 0, "{answer:?}");
    Err((number, place))
}

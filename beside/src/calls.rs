//! What a call gives, as one thing to compare: of the port, or of the reading of document 01.
use crate::tables::{Out, DUST};

/// An answer, the numbers beside it, and the outputs with all their places.
#[derive(Clone, Debug, PartialEq)]
pub struct Outcome {
    pub answer: u32,
    pub numbers: Vec<u64>,
    pub outs: Vec<Vec<u32>>,
}

pub fn plain(answer: u32, numbers: Vec<u64>) -> Outcome {
    Outcome { answer, numbers, outs: vec![] }
}

/// An output as document 01 has it after a call: filled from the start, else as before.
pub fn filled<const W: usize>(places: usize, rows: impl Iterator<Item = [u32; W]>) -> Vec<u32> {
    let mut out = Out::new(places);
    out.fill(rows);
    out.words()
}

/// A refusal: so many zeros, and outputs of so many words as they were.
pub fn refused(answer: u32, numbers: usize, words: Vec<usize>) -> Outcome {
    let outs = words.into_iter().map(|words| vec![DUST; words]).collect();
    Outcome { answer, numbers: vec![0; numbers], outs }
}

/// The words of an output, the rows behind it included.
pub fn untouched<const W: usize>(places: usize) -> usize {
    Out::<W>::new(places).words().len()
}

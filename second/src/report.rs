//! The report: a text with one block in, a text with its outcome out.

use crate::decode::{decode_wide, Decoded};
use crate::text::{accepted, refused};

/// The report program as a function from its input to its output.
pub fn report(input: &[u8]) -> Vec<u8> {
    let decoded =
        accepted(input).and_then(|block| decode_wide(&block.settings, &block.mask, &block.llr));
    match decoded {
        Ok(decoded) => print(&decoded).into_bytes(),
        Err(refusal) => refused(refusal),
    }
}

/// The output text of a decoded block.
pub fn print(decoded: &Decoded) -> String {
    let ending = decoded.ending;
    let mut text = format!(
        "iterations reason\n{} {}\nposition soft mark coded codedmark\n",
        ending.iterations, ending.reason
    );
    let outputs = &decoded.outputs;
    for i in 0..outputs.soft.len() {
        text += &format!(
            "{i} {} {} {} {}\n",
            outputs.soft[i], outputs.mark[i], outputs.coded_soft[i], outputs.coded_mark[i]
        );
    }
    text
}

//! The job "flatten", and the "program" that prints flat text.

use crate::answer::{Refusal, Why};
use crate::netlist::{Netlist, LEAST_NETLIST};
use crate::unfold::Unfolded;
use crate::{flat, grammar, names, unfold};

/// "a lent work table of 16,384 u32 words"
pub const LEAST_WORK: usize = 16_384;
/// "text longer than 16,384 bytes"
pub const TEXT: usize = 16_384;

/// Number, place and steps.
#[derive(Clone, Copy, PartialEq, Eq, Debug)]
pub struct Answer {
    pub number: u8,
    pub place: usize,
    pub steps: u32,
}

/// Pebble text into a lent netlist. This reference has no use for the work
/// table beyond its length, but leaves it as it must: "all zeros on every
/// return".
pub fn flatten(text: &[u8], work: &mut [u32], netlist: &mut [u16]) -> Answer {
    let lent_enough = work.len() >= LEAST_WORK && netlist.len() >= LEAST_NETLIST;
    work.fill(0);
    netlist.fill(0);
    match flattened(text, lent_enough) {
        Ok(Unfolded { netlist: made, steps }) => {
            let words = made.to_words();
            netlist[..words.len()].copy_from_slice(&words);
            // "Success returns the steps"
            Answer { number: 0, place: 0, steps }
        }
        // "every other answer returns 0 steps"
        Err(Refusal { why, place }) => Answer { number: why.number(), place, steps: 0 },
    }
}

/// "Order: 1, 2. Then words from the front .. Then 6 to 8 .. Then 9. Then
/// unfolding".
fn flattened(text: &[u8], lent_enough: bool) -> Result<Unfolded, Refusal> {
    if !lent_enough {
        return Err(Why::ShortBuffer.nowhere());
    }
    if text.len() > TEXT {
        return Err(Why::LongText.nowhere());
    }
    let blocks = grammar::read(text)?;
    let main = names::check(&blocks, text.len())?;
    unfold::unfold(&blocks, main)
}

/// "Program: reads Pebble text from standard input and prints the flat text,
/// or one line `refused N P`" (ended by LF).
pub fn pebble(text: &[u8]) -> Vec<u8> {
    match flattened(text, true) {
        Ok(Unfolded { netlist, .. }) => printed(&netlist),
        Err(Refusal { why, place }) => format!("refused {} {}\n", why.number(), place).into_bytes(),
    }
}

fn printed(netlist: &Netlist) -> Vec<u8> {
    flat::flat_text(netlist).into_bytes()
}

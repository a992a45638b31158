//! Areas of edition 2: an extended flags word, then words that nobody reads.

use super::rng::Rng;

/// Summary bit and critical flags of each kind: hop-by-hop, ingress-to-egress,
/// reserved.
const HOP_BY_HOP: (u32, u32) = (0x8000_0000, 0x1F00_0000);
const TO_EGRESS: (u32, u32) = (0x4000_0000, 0x0000_07E0);
const RESERVED: (u32, u32) = (0x2000_0000, 0x0003_8000);
const KINDS: [(u32, u32); 3] = [HOP_BY_HOP, TO_EGRESS, RESERVED];

const CRITICAL_ALERT: u32 = HOP_BY_HOP.0 | 0x0100_0000;
const NON_CRITICAL_ALERT: u32 = 0x0080_0000;
/// Non-critical flags other than the alert.
const NON_CRITICAL: u32 = 0x007C_781F;

/// At least one bit of a mask, often just one.
fn some(rng: &mut Rng, mask: u32) -> u32 {
    let bits: Vec<u32> = (0..32).map(|place| 1 << place).collect();
    let bits: Vec<u32> = bits.into_iter().filter(|bit| mask & bit != 0).collect();
    let more = match rng.below(4) {
        0 => rng.next() as u32 & mask,
        1 => mask,
        _ => 0,
    };
    rng.pick(&bits) | more
}

/// Nothing, or some flags of a kind with their summary bit.
fn now_and_then(rng: &mut Rng, (bit, flags): (u32, u32), times: usize) -> u32 {
    if rng.one_in(times) {
        bit | some(rng, flags)
    } else {
        0
    }
}

/// Flags that stop nobody.
fn harmless(rng: &mut Rng) -> u32 {
    let free = match rng.below(3) {
        0 => some(rng, NON_CRITICAL),
        _ => 0,
    };
    free | now_and_then(rng, RESERVED, 6)
}

fn alert(rng: &mut Rng) -> u32 {
    match rng.below(8) {
        0 | 1 => CRITICAL_ALERT | NON_CRITICAL_ALERT,
        2..5 => CRITICAL_ALERT,
        _ => NON_CRITICAL_ALERT,
    }
}

/// The word and, more often than not, nothing after it.
fn area(rng: &mut Rng, word: u32) -> Vec<u8> {
    let later = match rng.below(6) {
        0 => rng.pick(&[1, 30]),
        1 | 2 => 1 + rng.below(30),
        _ => 0,
    };
    with_words(rng, word, later)
}

fn with_words(rng: &mut Rng, word: u32, later: usize) -> Vec<u8> {
    let rest = rng.octets(4 * later);
    [&word.to_be_bytes()[..], &rest].concat()
}

/// Consistent and taken in both roles; often empty.
pub(super) fn carried(rng: &mut Rng) -> Vec<u8> {
    if rng.one_in(3) {
        return Vec::new();
    }
    let alert = if rng.one_in(3) { alert(rng) } else { 0 };
    let word = harmless(rng) | alert;
    area(rng, word)
}

/// With an alert, and sometimes what stops the egress.
pub(super) fn alerted(rng: &mut Rng) -> Vec<u8> {
    let word = harmless(rng) | alert(rng) | now_and_then(rng, TO_EGRESS, 4);
    area(rng, word)
}

/// One word with the non-critical alert alone, which edition 1 carries too.
pub(super) fn noticed() -> Vec<u8> {
    NON_CRITICAL_ALERT.to_be_bytes().to_vec()
}

/// Answer 20: an unknown critical flag, or a bare summary bit in a longer area.
pub(super) fn critical(rng: &mut Rng) -> Vec<u8> {
    let (bit, flags) = rng.pick(&KINDS);
    let alert = if rng.one_in(3) { alert(rng) } else { 0 };
    let rest = harmless(rng) | alert;
    if rng.one_in(2) {
        let word = rest | bit | some(rng, flags);
        area(rng, word)
    } else {
        let later = 1 + rng.below(30);
        with_words(rng, (rest & !flags) | bit, later)
    }
}

/// Answer 38: a flag without its summary bit, or a bare summary bit in an area
/// of one word.
pub(super) fn faulty(rng: &mut Rng) -> Vec<u8> {
    let (bit, flags) = rng.pick(&KINDS);
    let rest = harmless(rng);
    if rng.one_in(2) {
        let word = (rest | some(rng, flags)) & !bit;
        area(rng, word)
    } else {
        with_words(rng, (rest & !flags) | bit, 0)
    }
}

//! A buffer that the two programs write, one for each: equal before, compared
//! after.

use std::hint::black_box;

/// Octets on each side of what is lent, to be left alone.
const CANARY: usize = 64;

#[derive(Default)]
pub struct Buffers {
    product: Vec<u8>,
    reference: Vec<u8>,
}

impl Buffers {
    /// Makes both buffers `room` octets, with a pattern that depends on the
    /// place and on `key`, canaries included.
    pub fn fill(&mut self, room: usize, key: u64) {
        self.product.resize(room + 2 * CANARY, 0);
        for (place, octets) in self.product.chunks_mut(8).enumerate() {
            let word = mix(key.wrapping_add(place as u64)).to_le_bytes();
            octets.copy_from_slice(&word[..octets.len()]);
        }
        self.reference.clone_from(&self.product);
    }

    /// What the product is lent.
    pub fn product(&mut self) -> &mut [u8] {
        lent(&mut self.product)
    }

    /// What the second program is lent.
    pub fn reference(&mut self) -> &mut [u8] {
        lent(&mut self.reference)
    }

    /// How many octets around what the product is lent are not equal.
    pub fn around(&self) -> u64 {
        let end = self.product.len() - CANARY;
        let pairs = black_box(&self.product).iter().zip(&self.reference);
        let changed = pairs
            .enumerate()
            .filter(|(place, (left, right))| !(CANARY..end).contains(place) && left != right);
        changed.count() as u64
    }

    /// The first octet, canaries included, that is not equal.
    pub fn difference(&self, name: &str) -> Option<String> {
        // The product may have written outside of what it was lent.
        let (product, reference) = (black_box(&self.product), &self.reference);
        if product == reference {
            return None;
        }
        let mut pairs = product.iter().zip(reference);
        let place = pairs.position(|(left, right)| left != right)?;
        let room = product.len() - 2 * CANARY;
        let area = match place {
            ..CANARY => format!("{} before the {name}", CANARY - place),
            _ if place < CANARY + room => format!("{} of the {name}", place - CANARY),
            _ => format!("{} after the {name}", place - CANARY - room + 1),
        };
        let (left, right) = (product[place], reference[place]);
        Some(format!("octet {area} is {left:02x} and not {right:02x}"))
    }
}

fn lent(octets: &mut [u8]) -> &mut [u8] {
    let end = octets.len() - CANARY;
    &mut octets[CANARY..end]
}

fn mix(word: u64) -> u64 {
    let word = (word ^ word >> 32).wrapping_mul(0xD6E8_FEB8_6659_FD93);
    word ^ word >> 32
}

//! A small generator of numbers (splitmix64) and of frequent edge values.

pub(super) type Mac = [u8; 6];

pub(super) struct Rng(u64);

const GOLDEN: u64 = 0x9E37_79B9_7F4A_7C15;

fn mix(mut z: u64) -> u64 {
    z = (z ^ z >> 30).wrapping_mul(0xBF58_476D_1CE4_E5B9);
    z = (z ^ z >> 27).wrapping_mul(0x94D0_49BB_1331_11EB);
    z ^ z >> 31
}

impl Rng {
    /// `stream` keeps the kinds of input apart.
    pub(super) fn new(seed: u64, stream: u64, index: u64) -> Self {
        let start = mix(seed.wrapping_add(stream.wrapping_mul(GOLDEN)));
        Rng(mix(start ^ index.wrapping_mul(GOLDEN)))
    }

    pub(super) fn next(&mut self) -> u64 {
        self.0 = self.0.wrapping_add(GOLDEN);
        mix(self.0)
    }

    /// A number under `bound`, which is not 0.
    pub(super) fn below(&mut self, bound: usize) -> usize {
        ((u128::from(self.next()) * bound as u128) >> 64) as usize
    }

    pub(super) fn one_in(&mut self, times: usize) -> bool {
        self.below(times) == 0
    }

    pub(super) fn pick<T: Copy>(&mut self, from: &[T]) -> T {
        from[self.below(from.len())]
    }

    pub(super) fn octet(&mut self) -> u8 {
        self.next() as u8
    }

    pub(super) fn word(&mut self) -> u16 {
        self.next() as u16
    }

    pub(super) fn octets(&mut self, count: usize) -> Vec<u8> {
        let mut octets = Vec::with_capacity(count + 8);
        while octets.len() < count {
            octets.extend(self.next().to_le_bytes());
        }
        octets.truncate(count);
        octets
    }

    pub(super) fn shuffle<T>(&mut self, items: &mut [T]) {
        for last in (1..items.len()).rev() {
            items.swap(last, self.below(last + 1));
        }
    }

    /// A valid nickname, often at an end of the range.
    pub(super) fn nickname(&mut self) -> u16 {
        match self.below(8) {
            0 => self.pick(&[1, 2, 0xFFBE, 0xFFBF]),
            1..4 => 1 + self.below(24) as u16,
            _ => 1 + self.below(0xFFBF) as u16,
        }
    }

    /// No switch's own nickname.
    pub(super) fn bad_nickname(&mut self) -> u16 {
        match self.below(4) {
            0 => 0xFFC0 + self.below(0x40) as u16,
            _ => self.pick(&[0, 0xFFC0, 0xFFC1, 0xFFFF]),
        }
    }

    /// No switch's own nickname, nor Any-RBridge.
    pub(super) fn bad_egress(&mut self) -> u16 {
        match self.below(4) {
            0 => 0xFFC1 + self.below(0x3F) as u16,
            _ => self.pick(&[0, 0xFFC1, 0xFFFF]),
        }
    }

    /// Individual and not zero.
    pub(super) fn mac(&mut self) -> Mac {
        match self.below(16) {
            0 => [0, 0, 0, 0, 0, 1],
            1 => [0xFE, 0xFF, 0xFF, 0xFF, 0xFF, 0xFF],
            _ => {
                let [a, b, c, d, e, f, ..] = self.next().to_le_bytes();
                [a & 0xFE | 0x02, b, c, d, e, f]
            }
        }
    }

    /// Group, or all zero.
    pub(super) fn bad_mac(&mut self) -> Mac {
        let [first, rest @ ..] = self.mac();
        let [a, b, c, d, e] = rest;
        match self.below(4) {
            0 => [0; 6],
            1 => [0xFF; 6],
            2 => [1, 0, 0, 0, 0, 0],
            _ => [first | 1, a, b, c, d, e],
        }
    }
}

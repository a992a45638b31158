//! Options areas: well formed, critical, and ill formed in each way.

use super::rng::Rng;

const FLOW_ID: u16 = 0x083;
/// Other Types and flags beside the Flow ID's, none of them critical.
const BESIDE_FLOW_ID: [u16; 6] = [0x080, 0x081, 0x082, 0x084, 0x085, 0x183];
/// Greatest Length that is not reserved.
const MAX_LENGTH: usize = 118;
/// Keys with NC 1: hop-by-hop, then ingress-to-egress.
const NON_CRITICAL: [u16; 2] = [0x080, 0x180];
const CRITICAL: [u16; 2] = [0x000, 0x100];

/// An area as its first word and its options.
struct Area {
    first: u32,
    options: Vec<TlvOption>,
}

struct TlvOption {
    key: u16,
    length: u16,
    /// Data and padding.
    rest: Vec<u8>,
}

impl TlvOption {
    /// An option that takes `words` words, at most 30.
    fn new(rng: &mut Rng, key: u16, words: usize) -> Self {
        let most = 4 * words - 2;
        let spare = rng.below(4.min(most + 1));
        TlvOption {
            key,
            length: (most - spare) as u16,
            rest: rng.octets(most),
        }
    }

    /// An option with this Length and no word more than it needs.
    fn of_length(rng: &mut Rng, key: u16, length: usize) -> Self {
        TlvOption {
            key,
            length: length as u16,
            rest: rng.octets((length + 2).next_multiple_of(4) - 2),
        }
    }

    fn words(&self) -> usize {
        (2 + self.rest.len()) / 4
    }
}

impl Area {
    /// Well formed, of 1 to 31 words; critical options only if `critical`, and
    /// then with their summary bits.
    fn new(rng: &mut Rng, words: usize, critical: bool) -> Self {
        let mut sizes = Vec::new();
        let mut left = words - 1;
        while left > 0 {
            let most = if rng.one_in(3) { left } else { left.min(3) };
            let size = 1 + rng.below(most);
            sizes.push(size);
            left -= size;
        }
        let keys = keys(rng, sizes.len(), critical);
        let options = keys
            .into_iter()
            .zip(sizes)
            .map(|(key, size)| TlvOption::new(rng, key, size))
            .collect();
        let mut area = Area { first: 0, options };
        area.first = area.needed() | bit_options(rng);
        area
    }

    /// Summary bits that the TLV options need.
    fn needed(&self) -> u32 {
        let bit = |option: &TlvOption| match option.key >> 7 {
            0 => 0x8000_0000,
            2 => 0x4000_0000,
            _ => 0,
        };
        self.options.iter().map(bit).fold(0, |all, bit| all | bit)
    }

    fn octets(&self) -> Vec<u8> {
        let mut octets = self.first.to_be_bytes().to_vec();
        for option in &self.options {
            let head = option.key << 7 | option.length & 0x7F;
            octets.extend(head.to_be_bytes());
            octets.extend(&option.rest);
        }
        octets
    }
}

/// The 30 bits that are not summary bits.
fn bit_options(rng: &mut Rng) -> u32 {
    match rng.below(4) {
        0 => rng.next() as u32 & 0x3FFF_FFFF,
        1 => rng.pick(&[0x2000_0000, 0x0000_8000, 1, 0x00C0_0000]),
        _ => 0,
    }
}

/// Rising keys, with Flow ID and pad among them more often than not.
fn keys(rng: &mut Rng, count: usize, critical: bool) -> Vec<u16> {
    let mut keys: Vec<u16> = Vec::new();
    // The least key of all, which must not seem to repeat one before it.
    if critical && count > 0 && rng.one_in(4) {
        keys.push(0);
    }
    while keys.len() < count {
        let kind = if critical && rng.one_in(2) {
            rng.pick(&CRITICAL)
        } else {
            rng.pick(&NON_CRITICAL)
        };
        let type_and_mt = match rng.below(8) {
            0 => FLOW_ID & 0x7F,
            1 => rng.pick(&[0x40, 0x41]),
            2 => rng.pick(&[0x00, 0x01, 0x02, 0x7E, 0x7F]),
            _ => rng.below(128) as u16,
        };
        let key = kind | type_and_mt;
        if !keys.contains(&key) {
            keys.push(key);
        }
    }
    keys.sort_unstable();
    keys
}

fn words(rng: &mut Rng) -> usize {
    match rng.below(6) {
        0 => 1,
        1 => 31,
        2 => 30,
        3 => 1 + rng.below(31),
        _ => 2 + rng.below(6),
    }
}

/// Well formed and without a critical summary bit; often empty.
pub(super) fn carried(rng: &mut Rng) -> Vec<u8> {
    match rng.below(6) {
        0 | 1 => Vec::new(),
        2 => flow_id(rng),
        _ => {
            let words = words(rng);
            Area::new(rng, words, false).octets()
        }
    }
}

/// The Flow ID's Type and flags, or others beside them, with any Length, among
/// other options where there is room.
pub(super) fn flow_id(rng: &mut Rng) -> Vec<u8> {
    let key = if rng.one_in(3) {
        rng.pick(&BESIDE_FLOW_ID)
    } else {
        FLOW_ID
    };
    let length = match rng.below(8) {
        0 | 1 => rng.below(8),
        2..5 => 2,
        5 => MAX_LENGTH,
        _ => rng.below(MAX_LENGTH + 1),
    };
    let option = TlvOption::of_length(rng, key, length);
    let words = 1 + rng.below(32 - option.words());
    let mut area = Area::new(rng, words, false);
    area.options.retain(|other| other.key != key);
    area.options.push(option);
    area.options.sort_by_key(|option| option.key);
    area.octets()
}

/// Well formed with one or both summary bits set, with or without a TLV option
/// as the cause.
pub(super) fn critical(rng: &mut Rng) -> Vec<u8> {
    let words = words(rng);
    let with_tlv = rng.one_in(2);
    let mut area = Area::new(rng, words, with_tlv);
    if area.needed() == 0 || rng.one_in(4) {
        area.first |= rng.pick(&[0x8000_0000, 0x4000_0000, 0x4000_0000, 0xC000_0000]);
    }
    area.octets()
}

/// Ill formed, mostly in a chosen way.
pub(super) fn ill_formed(rng: &mut Rng) -> Vec<u8> {
    match rng.below(10) {
        0 => jumbled(rng),
        1..4 => unsummed(rng),
        _ => faulty_option(rng),
    }
}

/// Summary bits missing where critical options stand, one of them or both.
fn unsummed(rng: &mut Rng) -> Vec<u8> {
    let words = words(rng).max(2);
    let mut area = Area::new(rng, words, true);
    area.first &= !rng.pick(&[0x8000_0000, 0x4000_0000, 0xC000_0000]);
    area.octets()
}

/// Good options of any number of words, then one at fault, now and then in two
/// ways at once, then nothing or options with any keys. Summary bits may be
/// missing too.
fn faulty_option(rng: &mut Rng) -> Vec<u8> {
    let before = rng.below(30);
    let critical = rng.one_in(2);
    let mut area = Area::new(rng, 1 + before, critical);
    if critical && rng.one_in(2) {
        area.first &= 0x3FFF_FFFF;
    }
    let previous = area.options.last().map_or(0, |option| option.key);
    let words = 1 + rng.below(30 - before);
    let key = rng.below(512) as u16;
    let mut option = TlvOption::new(rng, key, words);
    for _ in 0..1 + rng.below(2) {
        match rng.below(4) {
            0 => option.length = 119 + rng.below(9) as u16,
            1 => option.length = past(rng, words),
            2 => option.key = rng.below(usize::from(previous).max(1)) as u16,
            _ => option.key = previous,
        }
    }
    area.options.push(option);
    if rng.one_in(3) {
        let left = 1 + rng.below(31 - before - words);
        let after = Area::new(rng, left, critical);
        area.options.extend(after.options);
    }
    area.octets()
}

/// A Length that takes more than these words; a reserved one if no other does.
fn past(rng: &mut Rng, words: usize) -> u16 {
    let least = 4 * words - 1;
    let spare = (MAX_LENGTH + 1).saturating_sub(least).max(1);
    (least + rng.below(spare)) as u16
}

/// One option with another Length or key, the options reversed, or the area's
/// end a word away from theirs.
fn jumbled(rng: &mut Rng) -> Vec<u8> {
    let words = words(rng).max(3);
    let critical = rng.one_in(3);
    let mut area = Area::new(rng, words, critical);
    let place = rng.below(area.options.len());
    match rng.below(4) {
        0 => area.options[place].length = rng.below(128) as u16,
        1 => area.options[place].key = rng.below(512) as u16,
        2 => area.options.reverse(),
        _ => return one_word_off(rng, &area),
    }
    area.octets()
}

/// The last option ends one word before or after the area does.
fn one_word_off(rng: &mut Rng, area: &Area) -> Vec<u8> {
    let mut octets = area.octets();
    if rng.one_in(2) {
        octets.truncate(octets.len() - 4);
    } else {
        octets.extend(rng.octets(4));
    }
    octets
}

/// C4 and C5: one option that fills the area of 31 words, Length 115 to 127.
pub(super) fn longest(rng: &mut Rng) -> Vec<u8> {
    let mut option = TlvOption::new(rng, FLOW_ID, 30);
    option.length = 115 + rng.below(13) as u16;
    let area = Area {
        first: 0,
        options: vec![option],
    };
    area.octets()
}

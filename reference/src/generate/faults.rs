//! Faults of campus descriptions, at any place of the file.

use super::rng::Rng;
use super::switches::{self, field, switch_field, Record};

type Fields = Vec<Vec<u8>>;

fn has_tag(field: &[u8], tag: u8) -> bool {
    field.first() == Some(&tag)
}

/// Place of a field after the first tag 1 and not after tag 5.
fn inside(rng: &mut Rng, fields: &Fields) -> usize {
    let after_first = fields.iter().position(|field| has_tag(field, 1));
    let low = after_first.map_or(0, |place| place + 1);
    let frame = fields.iter().position(|field| has_tag(field, 5));
    let high = frame.unwrap_or(fields.len()).max(low);
    low + rng.below(high - low + 1)
}

fn anywhere(rng: &mut Rng, fields: &Fields) -> usize {
    rng.below(fields.len() + 1)
}

/// One fault of the codes 41 to 48.
pub(super) fn spoil(rng: &mut Rng, fields: &mut Fields) {
    match rng.below(20) {
        0 | 1 => cut(rng, fields),
        2 => {
            let place = anywhere(rng, fields);
            fields.insert(place, switches::unknown_tag(rng));
        }
        3 | 4 => {
            let place = anywhere(rng, fields);
            fields.insert(place, switches::wrong_length(rng));
        }
        5..9 => misplace(rng, fields),
        9..12 => spoil_value(rng, fields),
        12 | 13 => repeat_switch(rng, fields),
        14 => add_switches(rng, fields),
        15 => too_many_records(rng, fields),
        16 | 17 => repeat_serial(rng, fields),
        _ => lose_entry(rng, fields),
    }
}

/// Code 41: the file ends within a field, or a field announces too much.
fn cut(rng: &mut Rng, fields: &mut Fields) {
    let place = anywhere(rng, fields);
    match rng.below(3) {
        0 => {
            let tag = rng.pick(&[0, 1, 2, 3, 4, 5, 6, 0xFF]);
            let rest = rng.pick(&[[0xFF, 0xFF], [0x08, 0x03], [0x80, 0x00]]);
            fields.insert(place, [&[tag], &rest[..]].concat());
        }
        1 => {
            let size = 1 + rng.below(2);
            let rest = rng.octets(size);
            fields.push(rest);
        }
        _ => {
            fields.truncate(place + 1);
            if let Some(last) = fields.last_mut() {
                let left = rng.below(last.len().max(1));
                last.truncate(left);
            }
        }
    }
}

/// Code 43: each field out of place, its value good or bad, or no tag 5.
fn misplace(rng: &mut Rng, fields: &mut Fields) {
    let any_value = match rng.below(6) {
        0 => switches::bad_record(rng),
        1 => switches::bad_strip(rng),
        2 => switches::bad_edition(rng),
        3 => Record::any(rng).field(),
        4 => field(6, &[2]),
        _ => field(3, &[1]),
    };
    match rng.below(5) {
        0 => fields.insert(0, any_value),
        1 => {
            for _ in 0..2 {
                let place = inside(rng, fields);
                fields.insert(place, field(4, &rng.octets(6)));
            }
        }
        2 => fields.push(any_value),
        3 => {
            let (tag, length) = rng.pick(&[(1, 8), (4, 6), (5, 2), (5, 60)]);
            fields.push(field(tag, &rng.octets(length)));
        }
        _ => fields.retain(|field| !has_tag(field, 5)),
    }
}

/// Code 44.
fn spoil_value(rng: &mut Rng, fields: &mut Fields) {
    let bad = match rng.below(5) {
        0 => switches::bad_switch(rng),
        1 => switches::bad_strip(rng),
        2 => switches::bad_edition(rng),
        _ => switches::bad_record(rng),
    };
    let place = inside(rng, fields);
    fields.insert(place, bad);
}

/// Code 45.
fn repeat_switch(rng: &mut Rng, fields: &mut Fields) {
    let switches: Vec<_> = fields.iter().filter(|field| has_tag(field, 1)).collect();
    if switches.is_empty() {
        return;
    }
    let mut again = rng.pick(&switches).clone();
    if rng.one_in(2) {
        again.truncate(5);
        again.extend(rng.mac());
    }
    let frame = fields.iter().position(|field| has_tag(field, 5));
    fields.insert(frame.unwrap_or(fields.len()), again);
}

/// Code 46 for switches: up to 17 of them, the last one bad now and then.
fn add_switches(rng: &mut Rng, fields: &mut Fields) {
    let frame = fields.iter().position(|field| has_tag(field, 5));
    let place = frame.unwrap_or(fields.len());
    let present = fields.iter().filter(|field| has_tag(field, 1)).count();
    let last = match rng.below(4) {
        0 => switches::bad_switch(rng),
        1 => switch_field(0x900F, rng.mac()),
        _ => switch_field(0x7FFF, rng.mac()),
    };
    fields.insert(place, last);
    for number in present..16 {
        fields.insert(place, switch_field(0x9000 + number as u16, rng.mac()));
    }
}

/// Place after the fields of the switch that the field at `place` belongs to.
fn end_of_switch(fields: &Fields, place: usize) -> usize {
    let later = fields[place + 1..].iter();
    let own = later.take_while(|field| !has_tag(field, 1) && !has_tag(field, 5));
    place + 1 + own.count()
}

/// Adds records to the switch whose tag 1 stands at `place` until it has
/// `count`.
fn fill_records(rng: &mut Rng, fields: &mut Fields, place: usize, count: usize) {
    let own = &fields[place + 1..end_of_switch(fields, place)];
    let present = own.iter().filter(|field| has_tag(field, 2)).count();
    for number in present..count {
        let record = Record {
            destination: 0x8000 + number as u16,
            ..Record::any(rng)
        };
        fields.insert(place + 1, record.field());
    }
}

fn switch_places(fields: &Fields) -> Vec<usize> {
    let places = 0..fields.len();
    places.filter(|&place| has_tag(&fields[place], 1)).collect()
}

/// 63 or 64 records at each switch.
pub(super) fn fill_all_records(rng: &mut Rng, fields: &mut Fields) {
    for place in switch_places(fields).into_iter().rev() {
        let count = 63 + rng.below(2);
        fill_records(rng, fields, place, count);
    }
}

/// Code 46 for records, with 44 and 47 at the same field now and then.
fn too_many_records(rng: &mut Rng, fields: &mut Fields) {
    let places = switch_places(fields);
    if places.is_empty() {
        return;
    }
    let place = rng.pick(&places);
    fill_records(rng, fields, place, 64);
    let end = end_of_switch(fields, place);
    let last = match rng.below(4) {
        0 => switches::bad_record(rng),
        1 => fields[end - 1].clone(),
        _ => Record::any(rng).field(),
    };
    fields.insert(end, last);
}

/// Code 47: a record's destination and serial again, the rest equal or not.
fn repeat_serial(rng: &mut Rng, fields: &mut Fields) {
    let records: Vec<usize> = (0..fields.len())
        .filter(|&place| has_tag(&fields[place], 2))
        .collect();
    if records.is_empty() {
        return;
    }
    let place = rng.pick(&records);
    let mut again = fields[place].clone();
    if rng.one_in(2) && again.len() >= 17 {
        again[5..7].copy_from_slice(&rng.nickname().to_be_bytes());
        again[7..13].copy_from_slice(&rng.mac());
    }
    let own = end_of_switch(fields, place) - place;
    fields.insert(place + 1 + rng.below(own), again);
}

/// Code 48: the entry is no switch of the campus.
fn lose_entry(rng: &mut Rng, fields: &mut Fields) {
    let Some(frame) = fields.iter().position(|field| has_tag(field, 5)) else {
        return;
    };
    if rng.one_in(3) {
        fields.drain(..frame);
        return;
    }
    let entry = if rng.one_in(2) {
        rng.bad_nickname()
    } else {
        0x7FFE
    };
    if let Some(octets) = fields[frame].get_mut(3..5) {
        octets.copy_from_slice(&entry.to_be_bytes());
    }
}

/// Adds strip flags after the first tag 1, and frame octets at the end, until
/// the file has `size` octets.
pub(super) fn fill_file(fields: &mut Fields, size: usize) {
    let present: usize = fields.iter().map(Vec::len).sum();
    let missing = size.saturating_sub(present);
    let after_first = fields.iter().position(|field| has_tag(field, 1));
    let place = after_first.map_or(0, |place| place + 1);
    fields.insert(place, field(3, &[1]).repeat(missing / 4));
    if let Some(frame) = fields.last_mut().filter(|field| has_tag(field, 5)) {
        frame.extend(vec![0; missing % 4]);
        // An earlier fault may have cut the field within its length.
        if let Some(length) = frame.len().checked_sub(3) {
            frame[1..3].copy_from_slice(&(length as u16).to_be_bytes());
        }
    }
}

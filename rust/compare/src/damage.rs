//! Damage to written books and models.

use crate::draft::{Field, Writer, FIELDS};
use crate::random::Random;

/// A mark of a class drawn from those that come up, so that rare classes are as frequent as common ones.
pub fn draw_mark<C: Copy + PartialEq>(random: &mut Random, classes: &[C], marks: &[(C, usize)]) -> Option<(C, usize)> {
    let present: Vec<C> = classes.iter().copied().filter(|class| marks.iter().any(|mark| mark.0 == *class)).collect();
    if present.is_empty() {
        return None;
    }
    let class = random.pick(&present);
    let places: Vec<(C, usize)> = marks.iter().copied().filter(|mark| mark.0 == class).collect();
    Some(random.pick(&places))
}

fn pair(bytes: &[u8], at: usize) -> u16 {
    u16::from_le_bytes([bytes[at], bytes[at + 1]])
}

fn set_pair(bytes: &mut [u8], at: usize, value: u16) {
    bytes[at..at + 2].copy_from_slice(&value.to_le_bytes());
}

/// Damages a book that follows the rules.
pub fn book(random: &mut Random, mut writer: Writer) -> Vec<u8> {
    match random.below(12) {
        0..=5 => fields(random, &mut writer),
        6 | 7 => trailer(random, &mut writer.bytes),
        8 => {
            let fewer = writer.index - random.below(writer.index.min(12)) - 1;
            resize_records(random, &mut writer, fewer);
        }
        9 => {
            let more = writer.index + random.below(4) + 1;
            resize_records(random, &mut writer, more);
        }
        10 => flip(random, &mut writer.bytes),
        _ => ends(random, &mut writer.bytes),
    }
    writer.bytes
}

/// Damages a model: its constraints, its length, or any of its bytes.
pub fn model(random: &mut Random, mut writer: Writer) -> Vec<u8> {
    match random.below(6) {
        0..=2 => fields(random, &mut writer),
        3 => writer.bytes.truncate(random.below(writer.bytes.len() + 1)),
        4 => writer.bytes.push(random.below(8) as u8),
        _ => flip(random, &mut writer.bytes),
    }
    writer.bytes
}

/// Sets one judged field, or a few, to numbers near a limit.
fn fields(random: &mut Random, writer: &mut Writer) {
    for _ in 0..random.pick(&[1, 1, 1, 2, 3]) {
        field(random, writer);
    }
}

fn field(random: &mut Random, writer: &mut Writer) {
    let (kind, at) = draw_mark(random, &FIELDS, &writer.marks).expect("books and models have fields");
    let any = random.number() as u8;
    let bytes = &mut writer.bytes;
    let near = bytes[at].wrapping_add(random.pick(&[1, 255]));
    match kind {
        Field::Arity => bytes[at] = random.pick(&[0, 1, 8, 9, 255, near]),
        Field::Variables => bytes[at] = random.pick(&[0, 16, 17, 255, near, near]),
        Field::Relation => bytes[at] = random.pick(&[0, 15, 16, 254, 255, near, near]),
        Field::Argument => bytes[at] = random.pick(&[0, 15, 16, 255, near, near]),
        Field::Kind => bytes[at] = random.pick(&[0, 3, 4, 6, 7, 8, 255, any, near]),
        Field::Divisor => set_pair(bytes, at, u16::from(random.pick(&[0, 0, 1, any]))),
        Field::Rest => {
            let divisor = pair(bytes, at - 2);
            set_pair(bytes, at, random.pick(&[divisor, divisor.wrapping_sub(1), divisor.wrapping_add(1), 65_535]));
        }
        Field::Entry => {
            let entry = pair(bytes, at);
            set_pair(bytes, at, random.pick(&[entry.wrapping_add(1), entry.wrapping_sub(1), entry ^ 256, 0, 65_535]));
        }
    }
}

/// Sets a field of the trailer to a number near its limit.
fn trailer(random: &mut Random, bytes: &mut [u8]) {
    let trailer = bytes.len() - 16;
    let step = random.pick(&[1, 65_535]);
    match random.below(9) {
        0 => bytes.copy_within(trailer + 4..trailer + 8, trailer),
        1 => {
            let hi = i32::from_le_bytes(bytes[trailer + 4..trailer + 8].try_into().expect("four bytes"));
            bytes[trailer..trailer + 4].copy_from_slice(&hi.wrapping_add(1).to_le_bytes());
        }
        2 | 3 => {
            let at = trailer + random.pick(&[8, 10]);
            set_pair(bytes, at, pair(bytes, at).wrapping_add(step));
        }
        4 => set_pair(bytes, trailer + 10, random.pick(&[0, 64, 65, 65_535])),
        5 => {
            let at = trailer + random.pick(&[12, 13]);
            bytes[at] = bytes[at].wrapping_add(step as u8);
        }
        6 => bytes[trailer + 12] = random.pick(&[0, 1, 16, 17, 255]),
        7 => bytes[trailer + 13] = bytes[trailer + 12],
        _ => bytes[trailer + random.pick(&[14, 15])] = random.pick(&[0, 1, 2, 255]),
    }
}

/// Moves the index forward or back over the records' end; all else stays in order.
fn resize_records(random: &mut Random, writer: &mut Writer, index: usize) {
    let rest = writer.bytes.split_off(writer.index);
    let filler = random.below(7) as u8;
    writer.bytes.resize(index, filler);
    writer.bytes.extend(rest);
    let trailer = writer.bytes.len() - 16;
    set_pair(&mut writer.bytes, trailer + 8, index as u16);
}

fn flip(random: &mut Random, bytes: &mut [u8]) {
    if bytes.is_empty() {
        return;
    }
    for _ in 0..random.below(3) + 1 {
        let at = random.below(bytes.len());
        bytes[at] ^= 1 << random.below(8);
    }
}

/// Cuts or lengthens the book at either end.
fn ends(random: &mut Random, bytes: &mut Vec<u8>) {
    match random.below(5) {
        0 => bytes.truncate(random.below(18)),
        1 => bytes.truncate(random.below(bytes.len())),
        2 => drop(bytes.drain(..random.below(bytes.len().min(20)))),
        3 => bytes.insert(0, random.below(9) as u8),
        _ => bytes.push(0),
    }
}

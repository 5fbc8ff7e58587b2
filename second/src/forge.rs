//! Pages that were not written by a writer: damaged ones (bytes of a sound
//! page changed) and forged ones (built field by field, so that a chosen row
//! is met, also in a later vector and at a later place).

use crate::columns::{any_pair, sound_column};
use crate::draft::{true_exception, Draft, Part};
use crate::floats::{Kind, KINDS};
use crate::layout;
use crate::overrun::{overrun, overrun_from, overrun_listed, reach, Stand};
use crate::random::Random;
use crate::sums::modulo;
use crate::write::write;

/// A page to read and examine, with the lent output's length in values.
pub struct Forged {
    pub note: String,
    pub kind: Kind,
    pub page: Vec<u8>,
    pub room: usize,
    /// The vector that was forged last, if one was.
    pub touched: Option<usize>,
}

/// A change to a draft.
type Forge = fn(&mut Draft, &mut Random);

/// Forgeries by the row that they are made for. A forged draft has a vector.
const FORGERIES: &[(&str, Forge)] = &[
    ("a header cut short", |draft, random| draft.keep = Some(random.below(8))),
    ("another version", |draft, random| draft.version = 1 ^ not_zero(random)),
    ("another mode", |draft, random| draft.mode = not_zero(random)),
    ("another integer encoding", |draft, random| draft.encoding = not_zero(random)),
    ("two faults in the header", two_in_header),
    ("s below 3", |draft, random| draft.s = random.below(3) as u8),
    ("s above 10", |draft, random| draft.s = random.between(11, 255) as u8),
    ("another s", |draft, random| draft.s = random.between(3, 10) as u8),
    ("count 16,385", |draft, _| draft.count = 16_385),
    ("a huge count", |draft, random| draft.count = 16_385 + (random.of_bits(31) as u32)),
    ("another count", |draft, random| {
        draft.count = draft.count.saturating_add_signed(random.near(9) as i32)
    }),
    ("offsets cut", |draft, random| {
        let end = layout::HEADER + draft.table();
        draft.keep = Some(random.between(8, end - 1));
    }),
    ("an offset wrong", |draft, random| {
        let v = draft.pick(random);
        draft.shifts[v] = random.near(9) as u32;
    }),
    ("offsets of any size", |draft, random| {
        let v = draft.pick(random);
        draft.shifts[v..].fill_with(|| random.word() as u32);
    }),
    ("offsets from byte 0", |draft, _| draft.shifts.fill(8)),
    ("offsets from the first vector", |draft, _| {
        let offsets = draft.table() as u32;
        draft.shifts.fill(0u32.wrapping_sub(offsets));
    }),
    ("an offset before the offsets' end", |draft, random| {
        let v = draft.pick(random);
        let less = if random.one_in(2) { 1 } else { random.between(1, draft.table()) };
        draft.put_offset(v, layout::HEADER + draft.table() - less);
    }),
    ("an offset that is the offsets' end", |draft, random| {
        let v = draft.pick(random);
        draft.put_offset(v, layout::HEADER + draft.table());
    }),
    ("an offset near the end or past it", |draft, random| {
        let v = draft.pick(random);
        let end = draft.starts()[draft.vectors.len()];
        let before = random.below(3 * layout::metadata(draft.kind));
        draft.put_offset(v, (end + 2).saturating_sub(before));
    }),
    ("two offsets swapped", |draft, random| {
        let (one, other) = (draft.pick(random), random.below(draft.vectors.len()));
        let starts = draft.starts();
        draft.put_offset(one, starts[other]);
        draft.put_offset(other, starts[one]);
    }),
    ("a gap before a vector", |draft, random| {
        let v = draft.pick(random);
        draft.gaps[v] = random.some_bytes(1, 9);
    }),
    ("the last vector where the one before is", last_on_another),
    ("metadata cut", |draft, random| {
        let v = draft.pick(random);
        let start = draft.starts()[v];
        draft.keep = Some(start + random.below(layout::metadata(draft.kind)));
    }),
    ("data cut", cut_data),
    ("exponent above E", |draft, random| {
        let above = draft.kind.largest_exponent() + 1;
        let exponent = if random.one_in(2) { above } else { random.between(above, 255) };
        draft.any(random).exponent = exponent as u8;
    }),
    ("factor above exponent", |draft, random| {
        let more = random.between(1, 9) as u8;
        let vector = draft.any(random);
        vector.factor = vector.exponent.saturating_add(more);
    }),
    ("more exceptions than values, stored", |draft, random| {
        let more = if random.one_in(2) { 1 } else { random.between(1, 9_000) };
        let vector = draft.any(random);
        vector.stored_count = Some((vector.fields.len() + more) as u16);
    }),
    ("more exceptions than values, with data", |draft, random| {
        let vector = draft.any(random);
        let more = vector.fields.len() + 1;
        vector.positions = (0..more as u16).collect();
        vector.exceptions = vec![0; more];
    }),
    ("as many exceptions as values, stored", |draft, random| {
        let vector = draft.any(random);
        vector.stored_count = Some(vector.fields.len() as u16);
    }),
    ("another count of exceptions", |draft, random| {
        let change = random.near(2) as i16;
        let vector = draft.any(random);
        let listed = vector.positions.len() as u16;
        vector.stored_count = Some(listed.saturating_add_signed(change));
    }),
    ("width above W", |draft, random| {
        let above = draft.kind.bits() + 1;
        let width = if random.one_in(2) { above } else { random.between(above, 255) };
        draft.any(random).width = width as u8;
    }),
    ("a position too high", |draft, random| {
        let kind = draft.kind;
        let more = if random.one_in(2) { 0 } else { random.of_bits(15) as u16 };
        let wanted = random.between(1, 3);
        let vector = draft.any(random);
        vector.need_exceptions(kind, wanted, random);
        let at = random.below(vector.positions.len());
        vector.positions[at] = vector.fields.len() as u16 + more;
    }),
    ("positions equal", |draft, random| {
        let vector = several_listed(draft, random);
        if vector.positions.len() > 1 {
            let at = random.between(1, vector.positions.len() - 1);
            vector.positions[at] = vector.positions[at - 1];
        }
    }),
    ("positions descending", |draft, random| {
        let vector = several_listed(draft, random);
        let (one, other) = (random.below(vector.positions.len()), vector.positions.len() - 1);
        vector.positions.swap(one, other);
    }),
    ("bytes after", |draft, random| draft.tail = random.some_bytes(2, 30)),
    ("one byte after", |draft, random| draft.tail = random.bytes(1)),
    ("an unused bit", unused_bit),
    ("a whole number too precise", |draft, random| {
        let whole = too_precise(draft.kind, random);
        put_unlisted(draft, random, whole);
    }),
    ("a whole number too large", |draft, random| {
        let whole = too_large(draft.kind, random);
        put_unlisted(draft, random, whole);
    }),
    ("a whole number that the sum rounds away", |draft, random| {
        let whole = rounded_away(draft.kind, random);
        put_unlisted(draft, random, whole);
    }),
    ("any whole number", |draft, random| {
        let whole = draft.kind.signed(random.of_bits(64));
        put_unlisted(draft, random, whole);
    }),
    ("a needless exception", needless),
    ("a listed value replaced", |draft, random| {
        let kind = draft.kind;
        let wanted = random.between(1, 4);
        let vector = draft.any(random);
        vector.need_exceptions(kind, wanted, random);
        let whole = random.of_bits(12) as i64;
        let at = random.below(vector.exceptions.len());
        vector.exceptions[at] = vector.back(kind, whole);
    }),
    ("another number at a listed position", no_stand_in),
    ("the last number as stand-in", |draft, random| {
        let kind = draft.kind;
        let vector = several_listed(draft, random);
        let wholes = vector.wholes(kind);
        let last = vector.unlisted().last().map_or(1, |last| wholes[*last]);
        vector.put(kind, &vector.positions.clone(), last);
    }),
    ("all listed, with a stand-in that isn't 0", |draft, random| {
        let kind = draft.kind;
        let whole = random.near(3);
        let vector = draft.any(random);
        vector.need_exceptions(kind, usize::MAX, random);
        let wholes = vec![whole; vector.fields.len()];
        vector.refit(&wholes);
    }),
    ("frame too small", |draft, random| {
        let less = if random.one_in(2) { 1 } else { 1 + random.of_bits(12) };
        let kind = draft.kind;
        let vector = draft.any(random);
        move_frame(vector, kind, 0u64.wrapping_sub(less));
    }),
    ("frame too large, fields wrapping", wrap),
    ("sums beyond the range", overrun),
    ("sums at the end of the range", reach),
    ("width too large", |draft, random| {
        let most = draft.kind.bits();
        let all = random.one_in(4);
        let vector = draft.any(random);
        let more = usize::from(vector.width) + 1;
        let width = if all { random.between(more, most) } else { more };
        vector.width = width.min(most) as u8;
    }),
    ("fields of any kind", wild),
    ("another pair", |draft, random| {
        let pair = any_pair(draft.kind, random);
        let vector = draft.any(random);
        (vector.exponent, vector.factor) = (pair.exponent as u8, pair.factor as u8);
    }),
    ("untouched", |_, _| {}),
];

/// Forgeries for row 17, alone and beside others; each is of one vector, but for
/// what belongs to no vector or to a later one.
pub const SUM_FORGERIES: [(&str, Forge); 11] = [
    ("sums beyond the range", overrun),
    ("sums beyond the range where listed", overrun_listed),
    ("sums at the end of the range", reach),
    ("fields wrapping", wrap),
    ("sums beyond the range, and a position at fault", |draft, random| {
        overrun_listed(draft, random);
        spoil_positions(draft, random);
    }),
    ("sums beyond the range, and a fault in a later vector", |draft, random| {
        overrun(draft, random);
        spoil_later(draft, random);
    }),
    ("sums beyond the range, and bytes after", |draft, random| {
        overrun(draft, random);
        draft.tail = random.some_bytes(1, 9);
    }),
    ("sums beyond the range, and an unused bit", |draft, random| {
        draft.focus = Some(draft.vectors.len() - 1);
        overrun_from(draft, random, Stand::HighNarrow);
        unused_bit(draft, random);
    }),
    ("fields wrapping, and a whole number too precise", |draft, random| {
        let whole = too_precise(draft.kind, random);
        put_unlisted(draft, random, whole);
        wrap(draft, random);
    }),
    ("fields wrapping, and a needless exception", |draft, random| {
        needless(draft, random);
        wrap(draft, random);
    }),
    ("fields wrapping, and another number at a listed position", |draft, random| {
        no_stand_in(draft, random);
        wrap(draft, random);
    }),
];

fn not_zero(random: &mut Random) -> u8 {
    if random.one_in(2) {
        1
    } else {
        random.between(1, 255) as u8
    }
}

fn two_in_header(draft: &mut Draft, random: &mut Random) {
    let parts: [fn(&mut Draft, &mut Random); 5] = [
        |draft, random| draft.version = 1 ^ not_zero(random),
        |draft, random| draft.mode = not_zero(random),
        |draft, random| draft.encoding = not_zero(random),
        |draft, random| draft.s = random.between(11, 255) as u8,
        |draft, random| draft.count = 16_385 + (random.of_bits(31) as u32),
    ];
    let first = random.below(4);
    parts[first](draft, random);
    parts[random.between(first + 1, 4)](draft, random);
}

/// Takes the last vector's bytes away and lets its offset say the place of the
/// one before, whose bytes are then the last.
fn last_on_another(draft: &mut Draft, _: &mut Random) {
    let last = draft.vectors.len() - 1;
    let starts = draft.starts();
    draft.put_offset(last, starts[last.saturating_sub(1)]);
    draft.keep = Some(starts[last]);
    draft.touched = Some(last);
}

/// Cuts inside the data of a vector, or one byte before its end.
fn cut_data(draft: &mut Draft, random: &mut Random) {
    let v = draft.pick(random);
    let starts = draft.starts();
    let data = starts[v] + layout::metadata(draft.kind);
    let last = starts[v + 1] - 1;
    draft.keep = Some(if random.one_in(3) { last } else { random.between(data, last) });
}

/// A vector with several exceptions, as far as it has values.
fn several_listed<'a>(draft: &'a mut Draft, random: &mut Random) -> &'a mut Part {
    let kind = draft.kind;
    let wanted = random.between(2, 6);
    let vector = draft.any(random);
    vector.need_exceptions(kind, wanted, random);
    vector
}

/// Only the last vector can have unused bits. If it has none by chance, an
/// odd width makes some; the lower row is still the one to be named.
fn unused_bit(draft: &mut Draft, random: &mut Random) {
    let Some(vector) = draft.vectors.last_mut() else { return };
    if vector.fields.len() * usize::from(vector.width) % 8 == 0 {
        vector.width |= 1;
    }
    let used = vector.fields.len() * usize::from(vector.width) % 8;
    vector.spare = if random.one_in(2) { 1 << random.between(used, 7) } else { random.byte() };
}

/// A whole number with more binary digits than a float of the kind holds.
fn too_precise(kind: Kind, random: &mut Random) -> i64 {
    let digits = if kind == Kind::Single { 24 } else { 53 };
    let whole = (1i64 << digits) + 1 + 2 * random.of_bits(digits - 3) as i64;
    if random.one_in(3) {
        -whole
    } else {
        whole
    }
}

/// An odd whole number above 2^22 or 2^51, which a float of the kind holds and
/// the fast rounding does not give.
fn rounded_away(kind: Kind, random: &mut Random) -> i64 {
    let power = if kind == Kind::Single { 22 } else { 51 };
    (1i64 << power) + 1 + 2 * random.of_bits(power - 1) as i64
}

/// A whole number whose float lies above L.
fn too_large(kind: Kind, random: &mut Random) -> i64 {
    let below = random.below(64) as i64;
    let (least, most) = match kind {
        Kind::Single => (i64::from(i32::MIN), i64::from(i32::MAX)),
        Kind::Double => (i64::MIN, i64::MAX),
    };
    if random.one_in(3) {
        least + below
    } else {
        most - below
    }
}

/// Changes a vector at one of its unlisted positions, if it has one; the
/// stand-ins follow, so that nothing else is wrong.
fn at_unlisted(
    draft: &mut Draft,
    random: &mut Random,
    change: impl FnOnce(&mut Part, Kind, usize),
) {
    let kind = draft.kind;
    let vector = draft.any(random);
    let unlisted = vector.unlisted();
    if unlisted.is_empty() {
        return;
    }
    let position = *random.choose(&unlisted);
    change(vector, kind, position);
    vector.settle(kind);
}

/// Puts a whole number at an unlisted position.
fn put_unlisted(draft: &mut Draft, random: &mut Random, whole: i64) {
    at_unlisted(draft, random, |vector, kind, position| {
        vector.put(kind, &[position as u16], whole);
    });
}

/// Lists a value that needs no listing.
fn needless(draft: &mut Draft, random: &mut Random) {
    at_unlisted(draft, random, |vector, kind, position| {
        let whole = vector.wholes(kind)[position];
        vector.list(position, vector.back(kind, whole));
    });
}

/// Puts another number than the stand-in at a listed position, if chance has it.
fn no_stand_in(draft: &mut Draft, random: &mut Random) {
    let kind = draft.kind;
    let wanted = random.between(1, 4);
    let vector = draft.any(random);
    vector.need_exceptions(kind, wanted, random);
    let position = *random.choose(&vector.positions);
    let other = match random.below(4) {
        0 => 0,
        1 => modulo(kind, vector.stand_in(kind), 1),
        2 => *random.choose(&vector.wholes(kind)),
        _ => kind.signed(random.of_bits(64)),
    };
    vector.put(kind, &[position], other);
}

/// Lets a listed position be too high, or two of them change places, and leaves
/// all else as it is.
fn spoil_positions(draft: &mut Draft, random: &mut Random) {
    let vector = draft.any(random);
    let last = vector.positions.len() - 1;
    if last > 0 && random.one_in(2) {
        vector.positions.swap(random.below(last), last);
    } else {
        vector.positions[random.below(last + 1)] = vector.fields.len() as u16;
    }
}

/// Puts a fault into a vector behind the one that was forged, if there is one.
fn spoil_later(draft: &mut Draft, random: &mut Random) {
    let later = draft.touched.map_or(0, |v| v + 1);
    if later < draft.vectors.len() {
        let v = random.between(later, draft.vectors.len() - 1);
        match random.below(3) {
            0 => draft.shifts[v] = 1,
            1 => draft.vectors[v].exponent = 99,
            _ => draft.vectors[v].width = 99,
        }
    }
}

/// Puts the frame above the smallest whole number, so that fields wrap.
fn wrap(draft: &mut Draft, random: &mut Random) {
    let more = if random.one_in(2) { 1 } else { 1 + random.of_bits(12) };
    let kind = draft.kind;
    let vector = draft.any(random);
    move_frame(vector, kind, more);
}

/// Moves the frame and keeps the whole numbers modulo 2^W: the fields take up
/// the difference, in the width that holds them.
fn move_frame(vector: &mut Part, kind: Kind, by: u64) {
    vector.frame = modulo(kind, vector.frame, by);
    for field in &mut vector.fields {
        *field = field.wrapping_sub(by) & kind.mask();
    }
    let largest = vector.fields.iter().copied().max().unwrap_or(0);
    vector.width = layout::width_of(largest) as u8;
}

/// Any pair, frame, width, fields and exceptions that pass the reader, but for
/// sums beyond the range.
fn wild(draft: &mut Draft, random: &mut Random) {
    let kind = draft.kind;
    let pair = any_pair(kind, random);
    let vector = draft.any(random);
    let width = random.between(0, kind.bits());
    let listed = *random.choose(&[0, 2, 5]);
    (vector.exponent, vector.factor) = (pair.exponent as u8, pair.factor as u8);
    vector.frame = kind.signed(random.of_bits(64));
    vector.width = width as u8;
    vector.positions.clear();
    vector.exceptions.clear();
    for i in 0..vector.fields.len() {
        vector.fields[i] = random.of_bits(width);
        if listed > 0 && random.one_in(listed) {
            let value = if random.one_in(2) { random.word() } else { true_exception(kind, random) };
            vector.list(i, value & kind.mask());
        }
    }
}

/// A change to the bytes of a page.
type Damage = fn(&mut Vec<u8>, &mut Random);

const DAMAGES: &[(&str, Damage)] = &[
    ("a bit flipped", |page, random| flip(page, random)),
    ("a few bits flipped", |page, random| {
        for _ in 0..random.between(2, 6) {
            flip(page, random);
        }
    }),
    ("a byte changed", |page, random| {
        let at = random.below(page.len());
        page[at] = random.byte();
    }),
    ("a byte near the start changed", |page, random| {
        let at = random.below(page.len().min(40));
        page[at] = *random.choose(&[0, 1, 2, 3, 8, 10, 11, 18, 19, 32, 33, 64, 65, 127, 255]);
    }),
    ("cut", |page, random| page.truncate(random.below(page.len()))),
    ("cut by a byte", |page, _| {
        page.pop();
    }),
    ("extended", |page, random| page.extend(random.some_bytes(1, 20))),
    ("a stretch taken out", |page, random| {
        let from = random.below(page.len());
        let to = random.between(from, page.len().min(from + 20));
        page.drain(from..to);
    }),
    ("a stretch cleared", |page, random| {
        let from = random.below(page.len());
        let to = random.between(from, page.len().min(from + 20));
        page[from..to].fill(0);
    }),
    ("random bytes after the header", |page, random| {
        let header = page.len().min(8);
        page.truncate(header);
        page.extend(random.some_bytes(0, 200));
    }),
    ("random bytes", |page, random| *page = random.some_bytes(0, 60)),
];

fn flip(page: &mut [u8], random: &mut Random) {
    if !page.is_empty() {
        let bit = random.below(page.len() * 8);
        page[bit / 8] ^= 1 << (bit % 8);
    }
}

/// Sizes of pages to forge: small, so that there are many of them; mostly
/// with several vectors, of which the last is seldom full.
fn page_size(random: &mut Random) -> (u8, usize) {
    let s = *random.choose(&[3, 3, 3, 4, 4, 5, 6, 7, 8, 9, 10]);
    let count = match random.below(100) {
        0..=69 => random.between(1, 60),
        70..=89 => random.between(1, 300),
        90..=98 => random.between(1, 1_500),
        _ => random.between(1, layout::MOST_VALUES),
    };
    (s, count)
}

/// The page of a sound column, by this program's own writer.
pub fn sound_page(kind: Kind, s: u8, count: usize, random: &mut Random) -> Vec<u8> {
    let column = sound_column(kind, s, count, random);
    let mut page = vec![0; column.room];
    let length = write(kind, s, &column.values, &column.pairs, &mut page);
    page.truncate(length.unwrap_or(0));
    page
}

/// How many values are lent: enough, one short, fewer, none.
fn page_room(page: &[u8], random: &mut Random) -> usize {
    let stored = page.get(4..8).map_or(0, layout::number) as usize;
    let count = stored.min(layout::MOST_VALUES);
    match random.below(16) {
        0 => count.saturating_sub(1),
        1 => random.below(count),
        2 => 0,
        3..=9 => count,
        _ => count + random.between(1, 16),
    }
}

/// The page of one of the forgeries for row 17: small, of several vectors
/// mostly. The first vector is forged, the last or any.
pub fn summed(forgery: usize, kind: Kind, random: &mut Random) -> Forged {
    let (s, count) = (*random.choose(&[3, 3, 3, 4, 5]), random.between(9, 70));
    let (note, forge) = SUM_FORGERIES[forgery];
    let sound = sound_page(kind, s, count, random);
    let mut draft = Draft::of_page(kind, &sound).expect("the page of a sound column");
    let last = draft.vectors.len() - 1;
    draft.focus = Some(match random.below(3) {
        0 => 0,
        1 => last,
        _ => random.below(last + 1),
    });
    forge(&mut draft, random);
    let page = draft.bytes();
    let room = page_room(&page, random);
    Forged { note: note.into(), kind, page, room, touched: draft.touched }
}

/// Every how many pages a sound page gets several changes.
const SEVERAL: usize = 12;

/// The page of an index: each forgery and each damage in turn, then some
/// with several forgeries and a damage on top.
pub fn forged(index: usize, random: &mut Random) -> Forged {
    let cycle = FORGERIES.len() + DAMAGES.len() + SEVERAL;
    let kind = KINDS[index / cycle % 2];
    let turn = index % cycle;
    let (s, count) = page_size(random);
    let mut page = sound_page(kind, s, count, random);
    let mut touched = None;
    let mut notes = Vec::new();

    let forgeries: Vec<usize> = if turn < FORGERIES.len() {
        vec![turn]
    } else if turn < FORGERIES.len() + DAMAGES.len() {
        vec![]
    } else {
        (0..random.between(2, 3)).map(|_| random.below(FORGERIES.len())).collect()
    };
    if let Some(mut draft) = Draft::of_page(kind, &page) {
        if random.one_in(2) {
            draft.focus = Some(draft.pick(random));
        }
        for forgery in forgeries {
            let (note, forge) = FORGERIES[forgery];
            forge(&mut draft, random);
            notes.push(note);
        }
        page = draft.bytes();
        touched = draft.touched;
    }

    let damage = match turn.checked_sub(FORGERIES.len()) {
        Some(turn) if turn < DAMAGES.len() => Some(turn),
        Some(_) if random.one_in(4) => Some(random.below(DAMAGES.len())),
        _ => None,
    };
    if let (Some(damage), false) = (damage, page.is_empty()) {
        let (note, change) = DAMAGES[damage];
        change(&mut page, random);
        notes.push(note);
    }
    let room = page_room(&page, random);
    Forged { note: notes.join("; "), kind, page, room, touched }
}

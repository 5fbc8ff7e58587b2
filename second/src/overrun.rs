//! Vectors in which frame plus field leaves the kind's signed range, or just
//! stays in it: how frame, width and fields of a draft are forged for row 17
//! (document 02's T-06).

use crate::draft::{Draft, Part};
use crate::floats::Kind;
use crate::layout::width_of;
use crate::random::Random;

/// Where the frame lies, and how wide the fields are.
#[derive(Clone, Copy)]
pub enum Stand {
    /// Near the end of the range, with a width below W.
    HighNarrow,
    /// Near the end of the range, with width W.
    HighWide,
    /// Below 0; only fields of width W lead from there out of the range.
    BelowZero,
}

const STANDS: [Stand; 3] = [Stand::HighNarrow, Stand::HighWide, Stand::BelowZero];

/// Lets sums of a vector leave the range, at listed positions or not.
pub fn overrun(draft: &mut Draft, random: &mut Random) {
    let stand = *random.choose(&STANDS);
    overrun_from(draft, random, stand);
}

/// The same, from a frame that lies so.
pub fn overrun_from(draft: &mut Draft, random: &mut Random, stand: Stand) {
    let kind = draft.kind;
    let listed = *random.choose(&[0, 0, 1, 3]);
    let vector = draft.any(random);
    vector.need_exceptions(kind, listed, random);
    let beyond = some_positions(vector.fields.len(), random);
    put_sums(vector, kind, stand, &beyond, random);
}

/// Lets sums of a vector leave the range at listed positions alone: at all of
/// them, or at one.
pub fn overrun_listed(draft: &mut Draft, random: &mut Random) {
    let kind = draft.kind;
    let stand = *random.choose(&STANDS);
    let listed = random.between(1, 4);
    let vector = draft.any(random);
    vector.need_exceptions(kind, listed, random);
    let mut beyond: Vec<usize> = vector.positions.iter().map(|p| usize::from(*p)).collect();
    if random.one_in(2) {
        beyond = vec![*random.choose(&beyond)];
    }
    put_sums(vector, kind, stand, &beyond, random);
}

/// Lets sums of a vector reach the end of the range and none leave it.
pub fn reach(draft: &mut Draft, random: &mut Random) {
    let (kind, stand) = (draft.kind, *random.choose(&STANDS));
    let vector = draft.any(random);
    put_sums(vector, kind, stand, &[], random);
}

/// The first position, the last, any, all from one on, or all.
fn some_positions(count: usize, random: &mut Random) -> Vec<usize> {
    let any = random.below(count);
    match random.below(5) {
        0 => vec![0],
        1 => vec![count - 1],
        2 => vec![any],
        3 => (any..count).collect(),
        _ => (0..count).collect(),
    }
}

/// Gives a vector a frame that lies so, and fields whose sums leave the range
/// at these positions and at no other.
fn put_sums(vector: &mut Part, kind: Kind, stand: Stand, beyond: &[usize], random: &mut Random) {
    let bits = kind.bits();
    let away = random.of_bits(bits - 2) as i64;
    let (frame, least, most) = match stand {
        Stand::HighNarrow => (kind.most() - away, 0, bits - 1),
        Stand::HighWide => (kind.most() - away, bits, bits),
        Stand::BelowZero => (-1 - away, bits, bits),
    };
    // The largest field that stays in the range, and the largest of all.
    let room = (i128::from(kind.most()) - i128::from(frame)) as u64;
    let largest = kind.mask() >> (bits - most);
    vector.frame = frame;
    for (i, field) in vector.fields.iter_mut().enumerate() {
        *field = if beyond.contains(&i) {
            let more = *random.choose(&[0, 0, 5, bits]);
            (room + 1).saturating_add(random.of_bits(more)).min(largest)
        } else {
            let less = *random.choose(&[0, 0, 5, bits]);
            let less = random.of_bits(less).min(room);
            if random.one_in(2) {
                less
            } else {
                room - less
            }
        };
    }
    let needed = width_of(vector.fields.iter().copied().max().unwrap_or(0));
    vector.width = random.between(needed.max(least), most) as u8;
}

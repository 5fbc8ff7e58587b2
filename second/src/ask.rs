//! What is asked of a page about single vectors: which numbers, and how much
//! room is lent for each; and small pages to ask at every cut and offset.

use crate::floats::Kind;
use crate::forge::sound_page;
use crate::layout;
use crate::random::Random;
use crate::read::parse_header;

/// A vector's number, and the lent output's length in values.
pub struct Question {
    pub number: u64,
    pub room: usize,
}

/// Of how many vectors a page may be for each of them to be asked for.
const FEW: usize = 8;

/// How many vectors a page says that it has, and how many values in each.
struct Counts {
    s: u8,
    count: usize,
    vectors: usize,
}

impl Counts {
    /// A header that is refused says nothing: then it is as if of no vectors.
    fn of(page: &[u8]) -> Counts {
        let (s, count) = parse_header(page).unwrap_or((3, 0));
        Counts { s, count, vectors: layout::vectors(count, s) }
    }

    /// Room for a vector: enough, more, one short, fewer, none.
    fn question(&self, number: u64, random: &mut Random) -> Question {
        let values = if number < self.vectors as u64 {
            layout::values_in(number as usize, self.count, self.s)
        } else {
            random.below(9)
        };
        let room = match random.below(16) {
            0 | 1 => values.saturating_sub(1),
            2 => random.below(values),
            3 => 0,
            4..=9 => values,
            _ => values + random.between(1, 16),
        };
        Question { number, room }
    }

    /// Numbers of no vector: the first two, and some that lose their upper
    /// bits, or their sign, in a smaller type.
    fn beyond(&self) -> [u64; 7] {
        let vectors = self.vectors as u64;
        let last = vectors.saturating_sub(1);
        [vectors, vectors + 1, 1 << 32, (1 << 32) + last, 1 << 63, (1 << 63) + last, u64::MAX]
    }
}

/// Every vector of a page, if there are few, else the first, the last and one
/// between; and a number of no vector, all of them if there is no vector.
pub fn every(page: &[u8], random: &mut Random) -> Vec<Question> {
    let counts = Counts::of(page);
    let mut numbers: Vec<usize> = (0..counts.vectors).collect();
    if counts.vectors > FEW {
        let between = random.between(1, counts.vectors - 2);
        numbers = vec![0, between, counts.vectors - 1];
    }
    let beyond = counts.beyond();
    let beyond = if numbers.is_empty() { &beyond[..] } else { &[*random.choose(&beyond)] };
    let numbers = numbers.into_iter().map(|v| v as u64).chain(beyond.iter().copied());
    numbers.map(|number| counts.question(number, random)).collect()
}

/// Two vectors of a page: the one that was forged, if one was, and another,
/// mostly the one before, whose end the forged one's offset says. Of a page
/// that has none, one number.
pub fn two(page: &[u8], touched: Option<usize>, random: &mut Random) -> Vec<Question> {
    let counts = Counts::of(page);
    if counts.vectors == 0 {
        let number = *random.choose(&counts.beyond());
        return vec![counts.question(number, random)];
    }
    let first = touched.unwrap_or_else(|| random.below(counts.vectors)) as u64;
    let second = match random.below(8) {
        0 => *random.choose(&counts.beyond()),
        1..=4 => first.saturating_sub(1),
        _ => random.below(counts.vectors) as u64,
    };
    [first, second].into_iter().map(|number| counts.question(number, random)).collect()
}

/// A page and what is asked of it.
pub struct Worn {
    pub note: String,
    pub page: Vec<u8>,
    pub questions: Vec<Question>,
}

/// A small page of several vectors, cut at every length and whole, and with
/// each offset at every place of the page and a little past its end.
pub fn worn(kind: Kind, random: &mut Random) -> Vec<Worn> {
    let count = random.between(17, 32);
    let sound = sound_page(kind, 3, count, random);
    let mut all = Vec::new();
    for length in 0..=sound.len() {
        let page = sound[..length].to_vec();
        let questions = every(&page, random);
        all.push(Worn { note: format!("cut to {length} bytes"), page, questions });
    }
    for v in 0..layout::vectors(count, 3) {
        let at = layout::HEADER + layout::OFFSET * v;
        for offset in 0..sound.len() as u32 {
            let mut page = sound.clone();
            page[at..at + layout::OFFSET].copy_from_slice(&offset.to_le_bytes());
            let questions = two(&page, Some(v), random);
            all.push(Worn { note: format!("offset {v} as {offset}"), page, questions });
        }
    }
    all
}

//! Drafts of pages: a sound page taken apart, so that each part of it can be
//! forged by itself, and put together again as bytes.

use crate::floats::Kind;
use crate::layout::{self, pack, push_number};
use crate::random::Random;
use crate::read::{parse, sums};
use crate::sums::modulo;
use crate::write::fit;

/// A page in parts, each of which may be changed by itself.
pub struct Draft {
    pub kind: Kind,
    pub version: u8,
    pub mode: u8,
    pub encoding: u8,
    pub s: u8,
    pub count: u32,
    pub vectors: Vec<Part>,
    /// Bytes that stand before a vector and belong to none.
    pub gaps: Vec<Vec<u8>>,
    /// Added to the offset of a vector.
    pub shifts: Vec<u32>,
    /// Only so many bytes are kept.
    pub keep: Option<usize>,
    pub tail: Vec<u8>,
    /// The vector that all forgeries go to, if they shall meet in one.
    pub focus: Option<usize>,
    /// The vector that was forged last.
    pub touched: Option<usize>,
}

/// A vector in parts.
pub struct Part {
    pub exponent: u8,
    pub factor: u8,
    /// The stored count of exceptions, if it is not the list's length.
    pub stored_count: Option<u16>,
    pub frame: i64,
    pub width: u8,
    pub fields: Vec<u64>,
    /// Bits put into the last packed byte, as far as fields leave it unused.
    pub spare: u8,
    pub positions: Vec<u16>,
    pub exceptions: Vec<u64>,
}

impl Part {
    /// The whole numbers, modulo 2^W where an earlier forgery lets sums leave
    /// the kind's range.
    pub fn wholes(&self, kind: Kind) -> Vec<i64> {
        self.fields.iter().map(|field| modulo(kind, self.frame, *field)).collect()
    }

    /// Takes other whole numbers, with the frame and width that fit them.
    pub fn refit(&mut self, wholes: &[i64]) {
        let (frame, fields, width) = fit(wholes);
        (self.frame, self.fields, self.width) = (frame, fields, width as u8);
    }

    /// Puts one whole number at some positions; an earlier forgery may have
    /// listed positions that the vector doesn't have.
    pub fn put(&mut self, kind: Kind, positions: &[u16], whole: i64) {
        let mut wholes = self.wholes(kind);
        for position in positions {
            if let Some(place) = wholes.get_mut(usize::from(*position)) {
                *place = whole;
            }
        }
        self.refit(&wholes);
    }

    /// The value of a whole number, also if the pair has been forged.
    pub fn back(&self, kind: Kind, whole: i64) -> u64 {
        let most = kind.largest_exponent();
        kind.back(whole, most.min(self.exponent.into()), most.min(self.factor.into()))
    }

    pub fn is_listed(&self, position: usize) -> bool {
        self.positions.contains(&(position as u16))
    }

    pub fn unlisted(&self) -> Vec<usize> {
        (0..self.fields.len()).filter(|i| !self.is_listed(*i)).collect()
    }

    pub fn stand_in(&self, kind: Kind) -> i64 {
        self.unlisted().first().map_or(0, |first| self.wholes(kind)[*first])
    }

    /// Puts a value into the list, at its place in the order.
    pub fn list(&mut self, position: usize, value: u64) {
        let position = position as u16;
        let at = self.positions.iter().position(|other| *other >= position);
        let at = at.unwrap_or(self.positions.len());
        self.positions.insert(at, position);
        self.exceptions.insert(at, value);
    }

    /// Gives every listed position the stand-in, and fits the frame to it.
    pub fn settle(&mut self, kind: Kind) {
        let stand_in = self.stand_in(kind);
        self.put(kind, &self.positions.clone(), stand_in);
    }

    /// Makes sure that at least so many true exceptions are listed, as far
    /// as there are values.
    pub fn need_exceptions(&mut self, kind: Kind, least: usize, random: &mut Random) {
        let least = least.min(self.fields.len());
        while self.positions.len() < least {
            let position = *random.choose(&self.unlisted());
            self.list(position, true_exception(kind, random));
        }
        self.settle(kind);
    }

    pub fn bytes(&self, kind: Kind) -> Vec<u8> {
        let listed = self.stored_count.unwrap_or(self.positions.len() as u16);
        let width = usize::from(self.width);
        let mut bytes = vec![self.exponent, self.factor];
        push_number(&mut bytes, u64::from(listed), 2);
        push_number(&mut bytes, self.frame as u64, kind.size());
        bytes.push(self.width);
        bytes.extend(pack(&self.fields, width));
        let used = self.fields.len() * width % 8;
        if used > 0 {
            let last = bytes.len() - 1;
            bytes[last] |= self.spare >> used << used;
        }
        for position in &self.positions {
            push_number(&mut bytes, u64::from(*position), layout::POSITION);
        }
        for value in &self.exceptions {
            push_number(&mut bytes, *value, kind.size());
        }
        bytes
    }
}

/// A value that is an exception for every pair.
pub fn true_exception(kind: Kind, random: &mut Random) -> u64 {
    let infinity = kind.nearest(f64::INFINITY);
    let value = match random.below(4) {
        0 => kind.sign(),
        1 => infinity,
        2 => infinity | kind.sign(),
        _ => infinity | 1 | (random.word() & kind.mask()),
    };
    value & kind.mask()
}

impl Draft {
    /// The parts of a sound page; nothing if the page isn't sound.
    pub fn of_page(kind: Kind, page: &[u8]) -> Option<Draft> {
        let page = parse(sums, kind, page).ok()?;
        let vectors: Vec<Part> = page
            .vectors
            .into_iter()
            .map(|vector| Part {
                exponent: vector.exponent,
                factor: vector.factor,
                stored_count: None,
                frame: vector.frame,
                width: vector.width as u8,
                fields: vector.fields,
                spare: 0,
                positions: vector.positions.iter().map(|p| *p as u16).collect(),
                exceptions: vector.exceptions,
            })
            .collect();
        Some(Draft {
            kind,
            version: 1,
            mode: 0,
            encoding: 0,
            s: page.s,
            count: page.count as u32,
            gaps: vec![Vec::new(); vectors.len()],
            shifts: vec![0; vectors.len()],
            vectors,
            keep: None,
            tail: Vec::new(),
            focus: None,
            touched: None,
        })
    }

    /// The end of the offsets, measured as offsets are.
    pub fn table(&self) -> usize {
        layout::OFFSET * self.vectors.len()
    }

    /// Where each vector starts in the page, and the end of the last.
    pub fn starts(&self) -> Vec<usize> {
        let mut starts = Vec::new();
        let mut end = layout::HEADER + self.table();
        for (gap, vector) in self.gaps.iter().zip(&self.vectors) {
            starts.push(end + gap.len());
            end += gap.len() + vector.bytes(self.kind).len();
        }
        starts.push(end);
        starts
    }

    /// Lets a vector's offset say another place of the page.
    pub fn put_offset(&mut self, v: usize, place: usize) {
        self.shifts[v] = (place as u32).wrapping_sub(self.starts()[v] as u32);
    }

    pub fn bytes(&self) -> Vec<u8> {
        let mut bytes = vec![self.version, self.mode, self.encoding, self.s];
        push_number(&mut bytes, u64::from(self.count), 4);
        for (start, shift) in self.starts().iter().zip(&self.shifts) {
            let offset = ((start - layout::HEADER) as u32).wrapping_add(*shift);
            push_number(&mut bytes, u64::from(offset), layout::OFFSET);
        }
        for (gap, vector) in self.gaps.iter().zip(&self.vectors) {
            bytes.extend(gap);
            bytes.extend(vector.bytes(self.kind));
        }
        bytes.extend(&self.tail);
        bytes.truncate(self.keep.unwrap_or(bytes.len()));
        bytes
    }

    /// The number of the vector to forge.
    pub fn pick(&mut self, random: &mut Random) -> usize {
        let v = self.focus.unwrap_or_else(|| random.below(self.vectors.len()));
        self.touched = Some(v);
        v
    }

    /// The vector to forge; a draft has at least one.
    pub fn any<'a>(&'a mut self, random: &mut Random) -> &'a mut Part {
        let v = self.pick(random);
        &mut self.vectors[v]
    }
}

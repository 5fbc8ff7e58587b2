//! Requests and answers as bytes, and the side that answers them.
//!
//! A request: call, kind, s and a zero byte; three lengths A, B, C of 4 bytes
//! each; then the values or the page, the pairs or the number of a vector,
//! and the output as it is lent. An answer: three numbers of 8 bytes, then
//! the output afterwards, or the two bytes of a pair that was chosen.

use std::io::{self, Read, Write};

use crate::answer::{answer_of, Answer, Call, Outcome};
use crate::choose::choose;
use crate::examine::examine;
use crate::floats::{Kind, Pair};
use crate::layout::{number, push_number};
use crate::read::read;
use crate::read_vector::read_vector;
use crate::write::{measure, write};

/// Bytes of a request before its lists.
pub const REQUEST_HEAD: usize = 16;
/// Bytes of an answer before its output.
pub const ANSWER_HEAD: usize = 24;

/// The limits of a frame.
pub const MOST_VALUES: usize = 16_400;
pub const MOST_BYTES: usize = 400_000;
pub const MOST_PAIRS: usize = 4_200;
/// Bytes of a vector's number.
pub const NUMBER: usize = 8;
/// Bytes of a chosen pair.
pub const PAIR: usize = 2;

/// The answer to a request that breaks the shape.
pub const MALFORMED: Answer = Answer { number: 255, vector: 0, place: 0 };

/// One call with everything that is lent to it.
#[derive(Clone)]
pub enum Request {
    Measure { kind: Kind, s: u8, values: Vec<u64>, pairs: Vec<u8> },
    Write { kind: Kind, s: u8, values: Vec<u64>, pairs: Vec<u8>, output: Vec<u8> },
    Read { kind: Kind, page: Vec<u8>, output: Vec<u64> },
    Examine { kind: Kind, page: Vec<u8> },
    ReadVector { kind: Kind, page: Vec<u8>, number: u64, output: Vec<u64> },
    Choose { kind: Kind, values: Vec<u64> },
}

/// What came of a call: the answer, and the bytes of the whole output, or of
/// the chosen pair.
#[derive(Clone, PartialEq, Eq)]
pub struct Reply {
    pub answer: Answer,
    pub output: Vec<u8>,
}

/// Values as bytes, little-endian.
pub fn value_bytes(kind: Kind, values: &[u64]) -> Vec<u8> {
    let mut bytes = Vec::with_capacity(values.len() * kind.size());
    for value in values {
        push_number(&mut bytes, *value, kind.size());
    }
    bytes
}

/// Bytes as values, little-endian.
pub fn bytes_values(kind: Kind, bytes: &[u8]) -> Vec<u64> {
    bytes.chunks_exact(kind.size()).map(number).collect()
}

impl Request {
    pub fn call(&self) -> Call {
        match self {
            Request::Measure { .. } => Call::Measure,
            Request::Write { .. } => Call::Write,
            Request::Read { .. } => Call::Read,
            Request::Examine { .. } => Call::Examine,
            Request::ReadVector { .. } => Call::ReadVector,
            Request::Choose { .. } => Call::Choose,
        }
    }

    pub fn kind(&self) -> Kind {
        match self {
            Request::Measure { kind, .. }
            | Request::Write { kind, .. }
            | Request::Read { kind, .. }
            | Request::Examine { kind, .. }
            | Request::ReadVector { kind, .. }
            | Request::Choose { kind, .. } => *kind,
        }
    }

    /// Bytes in the answer behind its three numbers.
    pub fn output_bytes(&self) -> usize {
        match self {
            Request::Write { output, .. } => output.len(),
            Request::Read { kind, output, .. } | Request::ReadVector { kind, output, .. } => {
                output.len() * kind.size()
            }
            Request::Measure { .. } | Request::Examine { .. } => 0,
            Request::Choose { .. } => PAIR,
        }
    }

    /// The request as a frame.
    pub fn to_bytes(&self) -> Vec<u8> {
        match self {
            Request::Measure { kind, s, values, pairs } => {
                frame(1, *kind, *s, values.len(), 0, &[&value_bytes(*kind, values), pairs, &[]])
            }
            Request::Write { kind, s, values, pairs, output } => {
                let lists: [&[u8]; 3] = [&value_bytes(*kind, values), pairs, output];
                frame(2, *kind, *s, values.len(), output.len(), &lists)
            }
            Request::Read { kind, page, output } => {
                let lists: [&[u8]; 3] = [page, &[], &value_bytes(*kind, output)];
                frame(3, *kind, unused(page.len()), page.len(), output.len(), &lists)
            }
            Request::Examine { kind, page } => {
                frame(4, *kind, unused(page.len()), page.len(), 0, &[page, &[], &[]])
            }
            Request::ReadVector { kind, page, number, output } => {
                let lists: [&[u8]; 3] = [page, &number.to_le_bytes(), &value_bytes(*kind, output)];
                frame(5, *kind, unused(page.len()), page.len(), output.len(), &lists)
            }
            Request::Choose { kind, values } => {
                let lists: [&[u8]; 3] = [&value_bytes(*kind, values), &[], &[]];
                frame(6, *kind, unused(values.len()), values.len(), 0, &lists)
            }
        }
    }

    /// Makes the call with this program's own rules.
    pub fn perform(&self) -> (Outcome, Reply) {
        match self {
            Request::Measure { kind, s, values, pairs } => {
                reply(measure(*kind, *s, values, pairs), Vec::new())
            }
            Request::Write { kind, s, values, pairs, output } => {
                let mut output = output.clone();
                let outcome = write(*kind, *s, values, pairs, &mut output);
                reply(outcome, output)
            }
            Request::Read { kind, page, output } => {
                let mut output = output.clone();
                let outcome = read(*kind, page, &mut output);
                reply(outcome, value_bytes(*kind, &output))
            }
            Request::Examine { kind, page } => reply(examine(*kind, page), Vec::new()),
            Request::ReadVector { kind, page, number, output } => {
                let mut output = output.clone();
                let outcome = read_vector(*kind, page, *number, &mut output);
                reply(outcome, value_bytes(*kind, &output))
            }
            Request::Choose { kind, values } => {
                let chosen = choose(*kind, values);
                // A refusal's pair is 0, 0.
                let pair = chosen.unwrap_or(Pair { exponent: 0, factor: 0 });
                let bytes = vec![pair.exponent as u8, pair.factor as u8];
                reply(chosen.map(|_| values.len()), bytes)
            }
        }
    }
}

fn reply(outcome: Outcome, output: Vec<u8>) -> (Outcome, Reply) {
    (outcome, Reply { answer: answer_of(outcome), output })
}

/// The byte s where it isn't used: any byte will do, so it varies.
fn unused(length: usize) -> u8 {
    length as u8
}

/// A frame of a call number, its lengths A and C, and the three lists; the
/// second list, of pairs or a vector's number, is in bytes, so its length is B.
fn frame(call: u8, kind: Kind, s: u8, a: usize, c: usize, lists: &[&[u8]; 3]) -> Vec<u8> {
    let mut bytes = vec![call, kind.bits() as u8, s, 0];
    push_number(&mut bytes, a as u64, 4);
    push_number(&mut bytes, lists[1].len() as u64, 4);
    push_number(&mut bytes, c as u64, 4);
    bytes.extend(lists.concat());
    bytes
}

impl Answer {
    pub fn to_bytes(self) -> Vec<u8> {
        let mut bytes = Vec::new();
        for number in [self.number, self.vector, self.place] {
            push_number(&mut bytes, number, 8);
        }
        bytes
    }

    /// The three numbers of an answer's head.
    pub fn from_bytes(bytes: &[u8]) -> Answer {
        let part = |i: usize| number(&bytes[8 * i..8 * (i + 1)]);
        Answer { number: part(0), vector: part(1), place: part(2) }
    }
}

/// What stands at the place of a request.
enum Incoming {
    Request(Request),
    Malformed,
    End,
}

/// Answers requests until the input ends or breaks the shape.
pub fn serve(input: &mut impl Read, output: &mut impl Write) -> io::Result<()> {
    loop {
        match next_request(input)? {
            Incoming::End => return Ok(()),
            Incoming::Malformed => {
                output.write_all(&MALFORMED.to_bytes())?;
                return output.flush();
            }
            Incoming::Request(request) => {
                let (_, reply) = request.perform();
                output.write_all(&reply.answer.to_bytes())?;
                output.write_all(&reply.output)?;
                output.flush()?;
            }
        }
    }
}

/// Up to `count` bytes; fewer only at the end of the input.
fn take(input: &mut impl Read, count: usize) -> io::Result<Vec<u8>> {
    let mut bytes = Vec::new();
    input.take(count as u64).read_to_end(&mut bytes)?;
    Ok(bytes)
}

fn next_request(input: &mut impl Read) -> io::Result<Incoming> {
    let head = take(input, REQUEST_HEAD)?;
    if head.is_empty() {
        return Ok(Incoming::End);
    }
    let Some((kind, lengths)) = parse_head(&head) else {
        return Ok(Incoming::Malformed);
    };
    let mut lists = Vec::new();
    for length in lengths {
        let list = take(input, length)?;
        if list.len() < length {
            return Ok(Incoming::Malformed);
        }
        lists.push(list);
    }
    Ok(Incoming::Request(build(head[0], kind, head[2], &lists)))
}

/// The kind and the bytes of the three lists, if the head keeps the shape.
fn parse_head(head: &[u8]) -> Option<(Kind, [usize; 3])> {
    if head.len() < REQUEST_HEAD || head[3] != 0 {
        return None;
    }
    let kind = match head[1] {
        32 => Kind::Single,
        64 => Kind::Double,
        _ => return None,
    };
    let a = number(&head[4..8]) as usize;
    let b = number(&head[8..12]) as usize;
    let c = number(&head[12..16]) as usize;
    let (most, bytes) = match head[0] {
        1 => ([MOST_VALUES, MOST_PAIRS, 0], [a * kind.size(), b, 0]),
        2 => ([MOST_VALUES, MOST_PAIRS, MOST_BYTES], [a * kind.size(), b, c]),
        3 => ([MOST_BYTES, 0, MOST_VALUES], [a, 0, c * kind.size()]),
        4 => ([MOST_BYTES, 0, 0], [a, 0, 0]),
        5 if b == NUMBER => ([MOST_BYTES, NUMBER, MOST_VALUES], [a, b, c * kind.size()]),
        6 => ([MOST_VALUES, 0, 0], [a * kind.size(), 0, 0]),
        _ => return None,
    };
    let within = a <= most[0] && b <= most[1] && c <= most[2];
    within.then_some((kind, bytes))
}

/// The request of a call number that the head's test has let through.
fn build(call: u8, kind: Kind, s: u8, lists: &[Vec<u8>]) -> Request {
    let values = || bytes_values(kind, &lists[0]);
    let page = || lists[0].clone();
    let pairs = || lists[1].clone();
    let output = || bytes_values(kind, &lists[2]);
    match call {
        1 => Request::Measure { kind, s, values: values(), pairs: pairs() },
        2 => {
            let output = lists[2].clone();
            Request::Write { kind, s, values: values(), pairs: pairs(), output }
        }
        3 => Request::Read { kind, page: page(), output: output() },
        4 => Request::Examine { kind, page: page() },
        5 => {
            let number = number(&lists[1]);
            Request::ReadVector { kind, page: page(), number, output: output() }
        }
        _ => Request::Choose { kind, values: values() },
    }
}

//! The comparison: cases are made, put to the other program and to this one,
//! and every answer and every byte of every output is held side by side.

use std::fmt::Write;

use crate::answer::{answer_of, refuse_at, Answer, Call, Fault, Outcome};
use crate::ask::{every, two, worn, Question};
use crate::choices::{self, Place, SORTS, TURNS};
use crate::columns::{column, shaped_column, Column};
use crate::driver::{split, Program, Running};
use crate::floats::{Kind, Pair, KINDS};
use crate::forge::{forged, summed, Forged, SUM_FORGERIES};
use crate::frames::{self, value_bytes, Reply, Request, MALFORMED};
use crate::layout::MOST_IN_VECTOR;
use crate::older::{self, Fate, FATES};
use crate::random::Random;
use crate::read::{parse_header, read};
use crate::read_vector::read_vector;
use crate::rooms::{self, SHAPES};
use crate::sums;
use crate::tally::Tally;
use crate::widths::{at_widths, beyond_at, page_at, Beyond};

/// A request and where it comes from.
struct Case {
    origin: String,
    request: Request,
    /// Whether a vector is asked of a page that the reader refuses.
    faulty: bool,
    /// The width of the fields, where the page was made for it.
    width: Option<usize>,
    /// What the other program's place has to be, where that is known before.
    place: Option<Place>,
    /// What both programs have to say, where that is known before.
    wanted: Option<Reply>,
    /// Whether what the request shows of row 17 is counted.
    traced: bool,
}

impl Case {
    fn of(origin: &str, request: Request) -> Case {
        let (origin, faulty, width) = (origin.into(), false, None);
        Case { origin, request, faulty, width, place: None, wanted: None, traced: false }
    }

    /// A request whose answer and output are known before.
    fn wanted(origin: &str, request: Request, outcome: Outcome, output: Vec<u8>) -> Case {
        let wanted = Some(Reply { answer: answer_of(outcome), output });
        Case { wanted, ..Case::of(origin, request) }
    }
}

/// Requests that the other program is at work on.
struct Batch {
    cases: Vec<Case>,
    running: Running,
}

/// How many differences are printed in full, of frames and of cases each.
const SHOWN: u64 = 5;
/// How many bytes of an input are printed.
const SHOWN_BYTES: usize = 4_096;
/// A batch goes out once it has so many bytes.
const BATCH_BYTES: usize = 4_000_000;

/// The generators of columns and pages have numbers of their own, so that
/// the same seed gives them different numbers.
const COLUMNS: u64 = 1;
const PAGES: u64 = 2;
const WORN: u64 = 3;
const WIDTHS: u64 = 4;
const ROOMS: u64 = 5;
const CHOICES: u64 = 6;
const OLDER: u64 = 7;
const SUMS: u64 = 8;
const BEYOND: u64 = 9;

/// How many columns of each shape are written into every room.
const SHAPED: usize = 12;

/// How many older pages are made for each fate, of each kind and seed.
const OLDER_PAGES: usize = 150;

/// How many pages are made by each forgery for row 17, of each kind and seed.
const SUM_PAGES: usize = 60;

/// A comparison with one program, and what it has found so far.
pub struct Comparison<'a> {
    program: &'a Program,
    pub tally: Tally,
    pub requests: u64,
    pub differences: u64,
    /// The differences before the ones that are printed now.
    earlier: u64,
    waiting: Vec<Case>,
    waiting_bytes: usize,
    under_way: Option<Batch>,
}

impl<'a> Comparison<'a> {
    pub fn new(program: &'a Program) -> Comparison<'a> {
        Comparison {
            program,
            tally: Tally::default(),
            requests: 0,
            differences: 0,
            earlier: 0,
            waiting: Vec::new(),
            waiting_bytes: 0,
            under_way: None,
        }
    }

    /// Compares columns: measured, written, and what was written read back,
    /// whole and by vectors, and examined.
    pub fn columns(&mut self, seed: u64, count: usize) -> Result<(), String> {
        for index in 0..count {
            let mut random = Random::of_case(seed, COLUMNS, index as u64);
            let made = column(index, &mut random);
            let origin = format!("seed {seed}, column {index} ({})", made.note);
            let (kind, s, room) = (made.kind, made.s, made.room);
            let (values, pairs) = (made.values, made.pairs);
            let output = random.bytes(room);

            let measure =
                Request::Measure { kind, s, values: values.clone(), pairs: pairs.clone() };
            let write = Request::Write { kind, s, values: values.clone(), pairs, output };
            if let (Ok(length), reply) = write.perform() {
                let page = reply.output[..length].to_vec();
                self.read_back(&origin, kind, &page, &values);
                self.count_edges(&write);
                let output = lend(kind, values.len() + random.below(9), &mut random);
                self.put(&origin, Request::Read { kind, page: page.clone(), output })?;
                let questions = every(&page, &mut random);
                self.ask(&origin, kind, &page, questions, &mut random)?;
                self.put(&origin, Request::Examine { kind, page })?;
            }
            self.put(&origin, measure)?;
            self.put(&origin, write)?;
        }
        self.finish()
    }

    /// This program must agree with itself: what it wrote comes back, and
    /// its examiner has nothing to say.
    fn read_back(&mut self, origin: &str, kind: Kind, page: &[u8], values: &[u64]) {
        let output = vec![0; values.len()];
        let (_, read) = Request::Read { kind, page: page.to_vec(), output }.perform();
        let (examined, _) = Request::Examine { kind, page: page.to_vec() }.perform();
        if read.output != value_bytes(kind, values) || examined != Ok(values.len()) {
            self.report(&format!("the second program contradicts itself\n  {origin}"));
        }
    }

    /// Compares damaged and forged pages.
    pub fn pages(&mut self, seed: u64, count: usize) -> Result<(), String> {
        for index in 0..count {
            let mut random = Random::of_case(seed, PAGES, index as u64);
            let made = forged(index, &mut random);
            let origin = format!("seed {seed}, page {index} ({})", made.note);
            for case in self.cases_of(&origin, made, &mut random) {
                self.put_case(case)?;
            }
        }
        self.finish()
    }

    /// A forged page is read, whole and two vectors of it, and examined.
    fn cases_of(&mut self, origin: &str, made: Forged, random: &mut Random) -> Vec<Case> {
        let Forged { kind, page, room, touched, .. } = made;
        let output = lend(kind, room, random);
        let questions = two(&page, touched, random);
        let mut cases = self.questioned(origin, kind, &page, questions, random);
        cases.push(Case::of(origin, Request::Read { kind, page: page.clone(), output }));
        cases.push(Case::of(origin, Request::Examine { kind, page }));
        cases
    }

    /// Compares pages in which sums leave the kind's signed range, beside other
    /// faults too, or just stay in it.
    pub fn sums(&mut self, seed: u64) -> Result<(), String> {
        for kind in KINDS {
            for forgery in 0..SUM_FORGERIES.len() {
                for turn in 0..SUM_PAGES {
                    let index = (kind.bits() * 100 + forgery) * 10_000 + turn;
                    let mut random = Random::of_case(seed, SUMS, index as u64);
                    let made = summed(forgery, kind, &mut random);
                    let origin = format!("seed {seed}, sums ({}), turn {turn}", made.note);
                    for case in self.cases_of(&origin, made, &mut random) {
                        self.put_case(Case { traced: true, ..case })?;
                    }
                }
            }
        }
        self.finish()
    }

    /// Compares the vectors of a small page of each kind, at every cut and at
    /// every offset.
    pub fn worn(&mut self, seed: u64) -> Result<(), String> {
        for kind in KINDS {
            let mut random = Random::of_case(seed, WORN, kind as u64);
            for made in worn(kind, &mut random) {
                let origin = format!("seed {seed}, small page ({})", made.note);
                self.ask(&origin, kind, &made.page, made.questions, &mut random)?;
            }
        }
        self.finish()
    }

    /// Compares pages at every width of each kind, short ones and long ones:
    /// read, whole and by vectors, and examined.
    pub fn widths(&mut self, seed: u64) -> Result<(), String> {
        for (kind, width, count, mut random) in at_widths(seed, WIDTHS, 0) {
            let page = page_at(kind, width, count, &mut random);
            let origin = format!("seed {seed}, width {width}, {count} values");
            let output = lend(kind, count + random.below(9), &mut random);
            let request = Request::Read { kind, page: page.clone(), output };
            let case = Case::of(&origin, request);
            self.put_case(Case { width: Some(width), ..case })?;
            let questions = every(&page, &mut random);
            self.ask(&origin, kind, &page, questions, &mut random)?;
            self.put(&origin, Request::Examine { kind, page })?;
        }
        self.finish()
    }

    /// Compares pages at every width of each kind in which a sum just leaves the
    /// range, at a position known before, and in which none does.
    pub fn beyond(&mut self, seed: u64) -> Result<(), String> {
        for (kind, width, count, mut random) in at_widths(seed, BEYOND, 1) {
            let made = beyond_at(kind, width, count, &mut random);
            let origin = format!("seed {seed}, beyond at width {width}, {count} values");
            self.put_beyond(&origin, kind, width, count, made, &mut random)?;
        }
        self.finish()
    }

    /// Puts the two pages of a sum that just leaves the range.
    fn put_beyond(
        &mut self,
        origin: &str,
        kind: Kind,
        width: usize,
        count: usize,
        made: Beyond,
        random: &mut Random,
    ) -> Result<(), String> {
        let Beyond { position, page, within } = made;
        let refused = refuse_at(Fault::SumLeavesRange, 0, position);
        let output = lend(kind, count, random);
        let left = value_bytes(kind, &output);
        let read = Request::Read { kind, page: page.clone(), output: output.clone() };
        let case = Case::wanted(origin, read, refused, left.clone());
        self.put_case(Case { width: Some(width), ..case })?;
        let vector = Request::ReadVector { kind, page: page.clone(), number: 0, output };
        self.put_wanted(origin, vector, refused, left)?;
        self.put_wanted(origin, Request::Examine { kind, page }, refused, Vec::new())?;

        let output = lend(kind, count, random);
        let read = Request::Read { kind, page: within.clone(), output };
        self.put_case(Case { width: Some(width), ..Case::of(origin, read) })?;
        self.put(origin, Request::Examine { kind, page: within })
    }

    /// Compares columns of every shape, measured and written into every room:
    /// by T-03 the page's size decides, wherever the bound lies.
    pub fn rooms(&mut self, seed: u64) -> Result<(), String> {
        for kind in KINDS {
            for shape in SHAPES {
                for turn in 0..SHAPED {
                    let index = (kind.bits() * 10 + shape as usize) * 1_000 + turn;
                    let mut random = Random::of_case(seed, ROOMS, index as u64);
                    let made = shaped_column(kind, shape, &mut random);
                    let (page, bound) = made.sizes();
                    let (s, values, pairs) = (made.s, made.values, made.pairs);
                    let origin = format!("seed {seed}, {}, turn {turn}", shape.text());
                    let (v, p) = (values.clone(), pairs.clone());
                    self.put(&origin, Request::Measure { kind, s, values: v, pairs: p })?;
                    for room in rooms::ROOMS {
                        let length = room.length(page, bound, &mut random);
                        let (v, p, output) = (values.clone(), pairs.clone(), random.bytes(length));
                        let write = Request::Write { kind, s, values: v, pairs: p, output };
                        self.put(&format!("{origin} ({})", room.text()), write)?;
                    }
                }
            }
        }
        self.finish()
    }

    /// Compares the pairs chosen for vectors of every sort and many lengths,
    /// and the pages that are written with them.
    pub fn choices(&mut self, seed: u64) -> Result<(), String> {
        for kind in KINDS {
            for sort in SORTS {
                for turn in 0..TURNS {
                    for count in choices::lengths(turn) {
                        let index = (kind.bits() * 100 + sort as usize) * 100 + turn;
                        let index = (index * 100_000 + count) as u64;
                        let mut random = Random::of_case(seed, CHOICES, index);
                        let values = choices::vector(sort, kind, count, &mut random);
                        let origin = format!("seed {seed}, {sort:?}, {count} values, turn {turn}");
                        self.choose(&origin, kind, values, &mut random)?;
                    }
                }
            }
        }
        self.finish()
    }

    /// Compares pages by the older rule: read, whole and by vectors, they give
    /// their values; examined, they are accepted or refused as the two ways to
    /// a whole number say; and the values written again are accepted.
    pub fn older(&mut self, seed: u64) -> Result<(), String> {
        for kind in KINDS {
            for fate in FATES {
                for turn in 0..OLDER_PAGES {
                    let index = (kind.bits() * 10 + fate as usize) * 10_000 + turn;
                    let mut random = Random::of_case(seed, OLDER, index as u64);
                    let made = older::column(fate, kind, &mut random);
                    let origin = format!("seed {seed}, older page for {fate:?}, turn {turn}");
                    self.older_page(&origin, made, &mut random)?;
                }
            }
        }
        self.finish()
    }

    /// Puts the older page of one column.
    fn older_page(
        &mut self,
        origin: &str,
        made: Column,
        random: &mut Random,
    ) -> Result<(), String> {
        let (size, _) = made.sizes();
        let Column { kind, s, values, pairs, .. } = made;
        let count = values.len();
        let page = older::page(kind, s, &values, &pairs);
        let (fate, outcome) = older::told(kind, s, &values, &pairs);
        self.tally.count_fate(kind, fate, outcome.map_or_else(|refusal| refusal.vector, |_| 0));

        let output = lend(kind, count + random.below(9), random);
        let left = [&values[..], &output[count..]].concat();
        let read = Request::Read { kind, page: page.clone(), output };
        self.put_wanted(origin, read, Ok(count), value_bytes(kind, &left))?;
        let questions = every(&page, random);
        self.ask(origin, kind, &page, questions, random)?;
        let examine = Request::Examine { kind, page: page.clone() };
        self.put_wanted(origin, examine, outcome, Vec::new())?;

        let output = random.bytes(size);
        let write = Request::Write { kind, s, values, pairs, output };
        let again = write.perform().1.output;
        if (again == page) != (fate == Fate::Kept) {
            self.report(&format!("{origin}: the page is not new just where a value moved"));
        }
        self.put_wanted(origin, write, Ok(size), again.clone())?;
        let examine = Request::Examine { kind, page: again };
        self.put_wanted(origin, examine, Ok(count), Vec::new())
    }

    /// Counts what the values of a column that has a page show.
    fn count_edges(&mut self, write: &Request) {
        let Request::Write { kind, s, values, pairs, .. } = write else { return };
        for (values, pair) in values.chunks(1 << s).zip(pairs.chunks_exact(2)) {
            let pair = Pair { exponent: pair[0].into(), factor: pair[1].into() };
            for value in values {
                self.tally.count_edges(*kind, *value, pair);
            }
        }
    }

    /// Asks for the pair of a vector, and what the page is with it.
    fn choose(
        &mut self,
        origin: &str,
        kind: Kind,
        values: Vec<u64>,
        random: &mut Random,
    ) -> Result<(), String> {
        if (1..=MOST_IN_VECTOR).contains(&values.len()) {
            self.tally.count_sights(kind, &choices::sights(kind, &values));
            for (request, place) in choices::pages(kind, &values, random) {
                self.put_case(Case { place: Some(place), ..Case::of(origin, request) })?;
            }
        }
        self.put(origin, Request::Choose { kind, values })
    }

    /// Asks for vectors of a page.
    fn ask(
        &mut self,
        origin: &str,
        kind: Kind,
        page: &[u8],
        questions: Vec<Question>,
        random: &mut Random,
    ) -> Result<(), String> {
        for case in self.questioned(origin, kind, page, questions, random) {
            self.put_case(case)?;
        }
        Ok(())
    }

    /// What asks for vectors of a page.
    fn questioned(
        &mut self,
        origin: &str,
        kind: Kind,
        page: &[u8],
        questions: Vec<Question>,
        random: &mut Random,
    ) -> Vec<Case> {
        let faulty = !self.read_alone(origin, kind, page);
        let case = |Question { number, room }| {
            let output = lend(kind, room, random);
            let request = Request::ReadVector { kind, page: page.to_vec(), number, output };
            Case { faulty, ..Case::of(origin, request) }
        };
        questions.into_iter().map(case).collect()
    }

    /// This program must agree with itself: each vector of a page, read alone,
    /// is that stretch of the whole reading. Whether there is a whole reading.
    fn read_alone(&mut self, origin: &str, kind: Kind, page: &[u8]) -> bool {
        let Ok((s, count)) = parse_header(page) else { return false };
        let mut whole = vec![0; count];
        if read(kind, page, &mut whole).is_err() {
            return false;
        }
        for (v, stretch) in whole.chunks(1 << s).enumerate() {
            let mut output = vec![0; stretch.len()];
            let outcome = read_vector(kind, page, v as u64, &mut output);
            if outcome != Ok(stretch.len()) || output != stretch {
                self.report(&format!("the second program contradicts itself\n  {origin}, {v}"));
            }
        }
        true
    }

    /// Puts a request into the batch.
    fn put(&mut self, origin: &str, request: Request) -> Result<(), String> {
        self.put_case(Case::of(origin, request))
    }

    /// Puts a request whose answer and output are known before.
    fn put_wanted(
        &mut self,
        origin: &str,
        request: Request,
        outcome: Outcome,
        output: Vec<u8>,
    ) -> Result<(), String> {
        self.put_case(Case::wanted(origin, request, outcome, output))
    }

    fn put_case(&mut self, case: Case) -> Result<(), String> {
        self.waiting_bytes += request_size(&case.request);
        self.waiting.push(case);
        if self.waiting_bytes >= BATCH_BYTES {
            return self.flush();
        }
        Ok(())
    }

    /// Puts the batch to the other program, and looks at the one before while
    /// that program is at work.
    fn flush(&mut self) -> Result<(), String> {
        let cases = std::mem::take(&mut self.waiting);
        self.waiting_bytes = 0;
        let requests: Vec<&Request> = cases.iter().map(|case| &case.request).collect();
        let running = self.program.ask(&requests)?;
        let before = self.under_way.replace(Batch { cases, running });
        before.map_or(Ok(()), |batch| self.settle(batch))
    }

    /// Looks at all that was put so far.
    fn finish(&mut self) -> Result<(), String> {
        self.flush()?;
        self.under_way.take().map_or(Ok(()), |batch| self.settle(batch))
    }

    /// Makes the calls of a batch here, too, and compares.
    fn settle(&mut self, batch: Batch) -> Result<(), String> {
        let requests: Vec<&Request> = batch.cases.iter().map(|case| &case.request).collect();
        let own: Vec<(Outcome, Reply)> = requests.iter().map(|r| r.perform()).collect();
        let bytes = batch.running.finish()?;
        let other = split(&requests, &bytes)?;
        for ((case, own), other) in batch.cases.iter().zip(&own).zip(&other) {
            self.hold(case, own, other.as_ref())?;
        }
        Ok(())
    }

    /// Holds two replies side by side.
    fn hold(
        &mut self,
        case: &Case,
        own: &(Outcome, Reply),
        other: Option<&Reply>,
    ) -> Result<(), String> {
        self.requests += 1;
        self.tally.count(case.request.call(), case.request.kind(), own.0);
        if case.faulty && own.0.is_ok() {
            self.tally.count_spared(case.request.kind());
        }
        if let Some(width) = case.width {
            self.tally.count_width(case.request.kind(), width, own.0);
        }
        self.count_room(&case.request);
        if case.traced {
            self.count_traces(case);
        }
        if other != Some(&own.1) {
            self.report(&describe(case, own, other));
        }
        if let (Some(place), Some(reply)) = (case.place, other) {
            if !place.holds(reply.answer.place) {
                let got = numbers(reply.answer);
                self.report(&format!("{}: {got}, place not {place:?}", case.origin));
            }
        }
        if let Some(wanted) = case.wanted.as_ref().filter(|wanted| **wanted != own.1) {
            let (said, wanted) = (numbers(own.1.answer), numbers(wanted.answer));
            self.report(&format!("{}: {said}, and not {wanted} as foretold", case.origin));
        }
        match other {
            None => Err(format!("the program ended before its answer to {}", case.origin)),
            Some(reply) if reply.answer == MALFORMED => {
                Err(format!("the program takes the frame of {} as malformed", case.origin))
            }
            Some(_) => Ok(()),
        }
    }

    /// Counts what a request shows of row 17. What no request of its call can
    /// show is a contradiction: above all a page refused by 17 that the examiner
    /// would accept without that row.
    fn count_traces(&mut self, case: &Case) {
        let (call, shown) = (case.request.call(), sums::shown(&case.request));
        self.tally.count_traces(call, case.request.kind(), &shown);
        if let Some(trace) = shown.iter().find(|trace| !trace.shown_by().contains(&call)) {
            self.report(&format!("{}: {} shows {trace:?}", case.origin, call.name()));
        }
    }

    /// Counts what was lent for which page, of a writer's request that has one.
    fn count_room(&mut self, request: &Request) {
        let Request::Write { kind, s, values, pairs, output } = request else { return };
        if let Some((shape, room)) = rooms::lent(*kind, *s, values, pairs, output.len()) {
            self.tally.count_room(*kind, shape, room);
        }
    }

    fn report(&mut self, text: &str) {
        self.differences += 1;
        if self.differences <= self.earlier + SHOWN {
            println!("difference {}: {text}\n", self.differences);
        }
    }

    /// Frames that break the shape get the answer 255, 0, 0 and no more;
    /// frames at a limit don't.
    pub fn malformed(&mut self) -> Result<usize, String> {
        let cases = malformed_frames();
        for (note, input, wanted) in &cases {
            let running = self.program.start(input.clone(), wanted.len() + 100)?;
            let got = running.finish()?;
            if got != *wanted {
                let start = &input[..input.len().min(64)];
                self.report(&format!(
                    "frames: {note}\n  input ({} bytes) {}\n  wanted  {}\n  program {}",
                    input.len(),
                    hex(start),
                    hex(wanted),
                    hex(&got)
                ));
            }
        }
        self.earlier = self.differences;
        Ok(cases.len())
    }
}

/// An output of random values, so that a value left alone can be told.
fn lend(kind: Kind, count: usize, random: &mut Random) -> Vec<u64> {
    (0..count).map(|_| random.word() & kind.mask()).collect()
}

/// Bytes of a request and its answer, roughly.
fn request_size(request: &Request) -> usize {
    let lists = match request {
        Request::Measure { kind, values, pairs, .. } => values.len() * kind.size() + pairs.len(),
        Request::Write { kind, values, pairs, .. } => values.len() * kind.size() + pairs.len(),
        Request::Read { page, .. } | Request::Examine { page, .. } => page.len(),
        Request::ReadVector { page, .. } => page.len() + frames::NUMBER,
        Request::Choose { kind, values } => values.len() * kind.size(),
    };
    frames::REQUEST_HEAD + lists + 2 * request.output_bytes()
}

/// A difference as a person reads it.
fn describe(case: &Case, own: &(Outcome, Reply), other: Option<&Reply>) -> String {
    let request = &case.request;
    let mut text = format!("{}, {}-bit\n", request.call().name(), request.kind().bits());
    let _ = writeln!(text, "  from     {}", case.origin);
    describe_inputs(&mut text, request);
    let why = own.0.map_or_else(|refusal| refusal.fault.line().text, |_| "done");
    let _ = writeln!(text, "  second   {}: {why}", numbers(own.1.answer));
    match other {
        None => text.push_str("  program  no answer, or not the whole of it"),
        Some(reply) => {
            let _ = write!(text, "  program  {}", numbers(reply.answer));
            describe_outputs(&mut text, &own.1.output, &reply.output);
        }
    }
    text
}

fn describe_inputs(text: &mut String, request: &Request) {
    match request {
        Request::Measure { kind, s, values, pairs } => {
            let _ = writeln!(text, "  s        {s}");
            let _ = writeln!(text, "  values   {}", hex_values(*kind, values));
            let _ = writeln!(text, "  pairs    {}", hex(pairs));
        }
        Request::Write { kind, s, values, pairs, output } => {
            let _ = writeln!(text, "  s        {s}");
            let _ = writeln!(text, "  values   {}", hex_values(*kind, values));
            let _ = writeln!(text, "  pairs    {}", hex(pairs));
            let _ = writeln!(text, "  room     {} bytes", output.len());
        }
        Request::Read { page, output, .. } => {
            let _ = writeln!(text, "  page     {}", hex(page));
            let _ = writeln!(text, "  room     {} values", output.len());
        }
        Request::Examine { page, .. } => {
            let _ = writeln!(text, "  page     {}", hex(page));
        }
        Request::ReadVector { page, number, output, .. } => {
            let _ = writeln!(text, "  page     {}", hex(page));
            let _ = writeln!(text, "  number   {number}");
            let _ = writeln!(text, "  room     {} values", output.len());
        }
        Request::Choose { kind, values } => {
            let _ = writeln!(text, "  values   {}", hex_values(*kind, values));
        }
    }
}

/// The first byte in which two outputs differ, with what stands around it.
fn describe_outputs(text: &mut String, own: &[u8], other: &[u8]) {
    let Some(at) = (0..own.len().max(other.len())).find(|i| own.get(*i) != other.get(*i)) else {
        return;
    };
    let around = |bytes: &[u8]| {
        let from = at.saturating_sub(16).min(bytes.len());
        hex(&bytes[from..bytes.len().min(at + 16)])
    };
    let from = at.saturating_sub(16);
    let _ = write!(text, "\n  outputs  differ first at byte {at}; from byte {from} on:");
    let _ = write!(text, "\n    second   {}", around(own));
    let _ = write!(text, "\n    program  {}", around(other));
}

fn numbers(answer: Answer) -> String {
    format!("{} {} {}", answer.number, answer.vector, answer.place)
}

/// Bytes in hexadecimal, the end left out if there are very many.
fn hex(bytes: &[u8]) -> String {
    let shown = &bytes[..bytes.len().min(SHOWN_BYTES)];
    let mut text: String = shown.iter().map(|byte| format!("{byte:02X}")).collect();
    if shown.len() < bytes.len() {
        let _ = write!(text, "... ({} bytes in all)", bytes.len());
    }
    text
}

/// Values as bit patterns, the end left out if there are very many.
fn hex_values(kind: Kind, values: &[u64]) -> String {
    let shown = &values[..values.len().min(SHOWN_BYTES / kind.size())];
    let digits = 2 * kind.size();
    let texts: Vec<String> = shown.iter().map(|value| format!("{value:0digits$X}")).collect();
    let mut text = texts.join(" ");
    if shown.len() < values.len() {
        let _ = write!(text, "... ({} values in all)", values.len());
    }
    text
}

/// Inputs that break the shape, or just don't, with the output that each
/// must get. Only what the rules of the frames say in so many words is here.
fn malformed_frames() -> Vec<(String, Vec<u8>, Vec<u8>)> {
    let good = good_requests();
    let before: Vec<u8> = good.iter().flat_map(Request::to_bytes).collect();
    let answers: Vec<u8> = good.iter().flat_map(answer_bytes).collect();
    let no = MALFORMED.to_bytes();
    let mut cases = vec![
        ("no requests".into(), vec![], vec![]),
        ("sound requests".into(), before.clone(), answers.clone()),
    ];
    for (note, bad) in bad_requests(&good) {
        cases.push((format!("{note}, alone"), bad.clone(), no.clone()));
        let input = [before.clone(), bad].concat();
        cases.push((format!("{note}, after sound requests"), input, [&answers[..], &no].concat()));
    }
    for (note, request) in requests_at_limits() {
        cases.push((note, request.to_bytes(), answer_bytes(&request)));
    }
    cases
}

fn answer_bytes(request: &Request) -> Vec<u8> {
    let (_, reply) = request.perform();
    [reply.answer.to_bytes(), reply.output].concat()
}

/// One sound request of each call.
fn good_requests() -> Vec<Request> {
    let (kind, s, pairs) = (Kind::Single, 10, vec![1, 0]);
    let values = vec![0x3FC0_0000, 0x7FC0_0000, 0x4020_0000];
    let output = vec![0xA5; 100];
    let write = Request::Write { kind, s, values: values.clone(), pairs: pairs.clone(), output };
    let (outcome, reply) = write.perform();
    let page = reply.output[..outcome.unwrap_or(0)].to_vec();
    vec![
        Request::Choose { kind, values: values.clone() },
        Request::Measure { kind, s, values, pairs },
        write,
        Request::Read { kind, page: page.clone(), output: vec![0xA5A5_A5A5; 5] },
        Request::Examine { kind, page: page.clone() },
        Request::ReadVector { kind, page, number: 0, output: vec![0xA5A5_A5A5; 5] },
    ]
}

fn bad_requests(good: &[Request]) -> Vec<(String, Vec<u8>)> {
    let mut bad = Vec::new();
    for request in good {
        let bytes = request.to_bytes();
        let call = request.call().name();
        for (at, byte) in [(0, 0), (0, 7), (0, 255), (1, 0), (1, 33), (1, 128), (3, 1), (3, 255)] {
            let mut changed = bytes.clone();
            changed[at] = byte;
            bad.push((format!("{call} with byte {at} as {byte}"), changed));
        }
        for keep in [1, 4, 8, 15, 16, 17, bytes.len() - 1] {
            bad.push((format!("{call} cut to {keep} bytes"), bytes[..keep].to_vec()));
        }
        for (at, length) in bad_lengths(request) {
            let mut changed = bytes.clone();
            changed[at..at + 4].copy_from_slice(&(length as u32).to_le_bytes());
            bad.push((format!("{call} with length {length} at byte {at}"), changed));
        }
    }
    bad
}

/// Lengths that the frame of a call must not have, and where they stand.
fn bad_lengths(request: &Request) -> Vec<(usize, usize)> {
    let most = match request {
        Request::Measure { .. } => [frames::MOST_VALUES, frames::MOST_PAIRS, 0],
        Request::Write { .. } => [frames::MOST_VALUES, frames::MOST_PAIRS, frames::MOST_BYTES],
        Request::Read { .. } => [frames::MOST_BYTES, 0, frames::MOST_VALUES],
        Request::Examine { .. } => [frames::MOST_BYTES, 0, 0],
        Request::ReadVector { .. } => [frames::MOST_BYTES, frames::NUMBER, frames::MOST_VALUES],
        Request::Choose { .. } => [frames::MOST_VALUES, 0, 0],
    };
    let mut bad = Vec::new();
    for (at, most) in [4, 8, 12].into_iter().zip(most) {
        bad.extend([(at, most + 1), (at, u32::MAX as usize)]);
    }
    if request.call() == Call::ReadVector {
        // The one length that may not be shorter either.
        bad.extend([(8, 0), (8, frames::NUMBER - 1)]);
    }
    bad
}

/// Requests whose lists are as long as they may be.
fn requests_at_limits() -> Vec<(String, Request)> {
    let mut requests = Vec::new();
    for kind in [Kind::Single, Kind::Double] {
        let values = vec![0; frames::MOST_VALUES];
        let pairs = vec![0; frames::MOST_PAIRS];
        let page = vec![1; frames::MOST_BYTES];
        let note = |call: &str| format!("{call} at its limits, {}-bit", kind.bits());
        requests.push((note("choose"), Request::Choose { kind, values: values.clone() }));
        let (v, p) = (values.clone(), pairs.clone());
        requests.push((note("measure"), Request::Measure { kind, s: 3, values: v, pairs: p }));
        let output = vec![0xA5; frames::MOST_BYTES];
        let (v, p) = (values.clone(), pairs);
        requests.push((note("write"), Request::Write { kind, s: 3, values: v, pairs: p, output }));
        let (p, output) = (page.clone(), values.clone());
        requests.push((note("read"), Request::Read { kind, page: p, output }));
        requests.push((note("examine"), Request::Examine { kind, page: page.clone() }));
        let vector = Request::ReadVector { kind, page, number: u64::MAX, output: values };
        requests.push((note("vector"), vector));
    }
    requests
}

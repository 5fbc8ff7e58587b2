//! Counts which answers were given by which call, in which cases of row 17, at
//! which widths, in which rooms, for which choices, edges and older pages, and
//! says what was never met.

use std::fmt::Write;

use crate::answer::{Call, Fault, Outcome, CALLS, TABLE};
use crate::choices::{Sight, SIGHTS};
use crate::edges::{self, EDGES};
use crate::floats::{Kind, Pair, KINDS};
use crate::older::{Fate, FATES};
use crate::rooms::{Room, Shape, ROOMS, SHAPES};
use crate::sums::{Trace, TRACES};

/// Counts of one line of the table, by call and kind.
#[derive(Clone, Copy, Default)]
struct Counts {
    by: [[u64; KINDS.len()]; CALLS.len()],
    /// How many of them named a vector other than the first.
    later: [u64; CALLS.len()],
}

pub struct Tally {
    done: Counts,
    refused: Vec<Counts>,
    /// What requests showed of row 17.
    traces: Vec<Counts>,
    /// Vectors that were read alone from pages that reading as a whole refuses.
    spared: [u64; KINDS.len()],
    /// How many pages were read at each width, of those made for it, and how
    /// many refused by row 17.
    widths: [[u64; WIDTHS]; KINDS.len()],
    beyond: [[u64; WIDTHS]; KINDS.len()],
    /// How often each room was lent for a page of each shape.
    rooms: [[[u64; KINDS.len()]; SHAPES.len()]; ROOMS.len()],
    /// How many vectors to choose for showed what.
    sights: [[u64; KINDS.len()]; SIGHTS.len()],
    /// How many values written showed which mistake in the fast rounding.
    edges: [[u64; KINDS.len()]; EDGES.len()],
    /// How many of them it doesn't bring to the nearest whole number, by the
    /// power of two below their scaled value.
    powers: [[u64; WIDTHS]; KINDS.len()],
    /// What became of older pages, and of how many by a later vector.
    fates: [[u64; KINDS.len()]; FATES.len()],
    later_fates: [u64; FATES.len()],
}

/// The widths of the larger kind: 0 to 64.
const WIDTHS: usize = 65;

impl Default for Tally {
    fn default() -> Tally {
        let refused = vec![Counts::default(); TABLE.len()];
        let traces = vec![Counts::default(); TRACES.len()];
        let (spared, widths) = ([0; KINDS.len()], [[0; WIDTHS]; KINDS.len()]);
        let beyond = widths;
        let rooms = [[[0; KINDS.len()]; SHAPES.len()]; ROOMS.len()];
        let sights = [[0; KINDS.len()]; SIGHTS.len()];
        let (edges, powers) = ([[0; KINDS.len()]; EDGES.len()], [[0; WIDTHS]; KINDS.len()]);
        let (fates, later_fates) = ([[0; KINDS.len()]; FATES.len()], [0; FATES.len()]);
        let done = Counts::default();
        Tally {
            done,
            refused,
            traces,
            spared,
            widths,
            beyond,
            rooms,
            sights,
            edges,
            powers,
            fates,
            later_fates,
        }
    }
}

impl Tally {
    pub fn count(&mut self, call: Call, kind: Kind, outcome: Outcome) {
        let (counts, vector) = match outcome {
            Ok(_) => (&mut self.done, 0),
            Err(refusal) => (&mut self.refused[refusal.fault as usize], refusal.vector),
        };
        counts.by[call as usize][kind as usize] += 1;
        if vector > 0 {
            counts.later[call as usize] += 1;
        }
    }

    pub fn count_traces(&mut self, call: Call, kind: Kind, traces: &[Trace]) {
        for trace in traces {
            self.traces[*trace as usize].by[call as usize][kind as usize] += 1;
        }
    }

    pub fn count_spared(&mut self, kind: Kind) {
        self.spared[kind as usize] += 1;
    }

    pub fn count_width(&mut self, kind: Kind, width: usize, outcome: Outcome) {
        match outcome {
            Ok(_) => self.widths[kind as usize][width] += 1,
            Err(refusal) if refusal.fault == Fault::SumLeavesRange => {
                self.beyond[kind as usize][width] += 1;
            }
            Err(_) => {}
        }
    }

    pub fn count_room(&mut self, kind: Kind, shape: Shape, room: Room) {
        self.rooms[room as usize][shape as usize][kind as usize] += 1;
    }

    pub fn count_sights(&mut self, kind: Kind, sights: &[Sight]) {
        for sight in sights {
            self.sights[*sight as usize][kind as usize] += 1;
        }
    }

    pub fn count_edges(&mut self, kind: Kind, value: u64, pair: Pair) {
        for edge in edges::shown(kind, value, pair) {
            self.edges[edge as usize][kind as usize] += 1;
        }
        if let Some(power) = edges::power_moved(kind, value, pair) {
            self.powers[kind as usize][power] += 1;
        }
    }

    pub fn count_fate(&mut self, kind: Kind, fate: Fate, vector: usize) {
        self.fates[fate as usize][kind as usize] += 1;
        if vector > 0 {
            self.later_fates[fate as usize] += 1;
        }
    }

    /// Every mistake in the fast rounding that no value would have shown, and
    /// every power of two above which no value was moved.
    fn missing_edges(&self) -> Vec<String> {
        let mut missing = Vec::new();
        for kind in KINDS {
            let bits = kind.bits();
            for edge in EDGES {
                if self.edges[edge as usize][kind as usize] == 0 {
                    missing.push(format!("an edge: {}, {bits}-bit", edge.text()));
                }
            }
            for power in edges::powers(kind) {
                if self.powers[kind as usize][power] == 0 {
                    missing.push(format!("a value moved above 2^{power}, {bits}-bit"));
                }
            }
        }
        missing
    }

    /// Every fate that no older page had, or none by a later vector.
    fn missing_fates(&self) -> Vec<String> {
        let mut missing = Vec::new();
        for fate in FATES {
            for kind in KINDS {
                if self.fates[fate as usize][kind as usize] == 0 {
                    missing.push(format!("an older page: {}, {}-bit", fate.text(), kind.bits()));
                }
            }
            if fate != Fate::Kept && self.later_fates[fate as usize] == 0 {
                missing.push(format!("an older page: {} in a later vector", fate.text()));
            }
        }
        missing
    }

    /// Everything that no vector to choose for has shown.
    fn missing_sights(&self) -> Vec<String> {
        let mut missing = Vec::new();
        for sight in SIGHTS {
            for kind in KINDS {
                if self.sights[sight as usize][kind as usize] == 0 {
                    missing.push(format!("a choice: {}, {}-bit", sight.text(), kind.bits()));
                }
            }
        }
        missing
    }

    /// How many pages were read at each width that a kind has, and how many
    /// refused by row 17 at each but 0, with what to say of them.
    fn widths(&self, kind: Kind) -> [(usize, &[u64], &'static str); 2] {
        let (read, beyond) = (&self.widths[kind as usize], &self.beyond[kind as usize]);
        let bits = kind.bits();
        [(0, &read[..=bits], "read"), (1, &beyond[1..=bits], "refused by 17")]
    }

    /// Every width at which no page was read, or none refused by row 17.
    fn missing_widths(&self) -> Vec<String> {
        let mut missing = Vec::new();
        for kind in KINDS {
            for (least, counts, what) in self.widths(kind) {
                let never = (least..).zip(counts).filter(|(_, count)| **count == 0);
                let text = |(w, _)| format!("a page {what} at width {w}, {}-bit", kind.bits());
                missing.extend(never.map(text));
            }
        }
        missing
    }

    /// Every room that was never lent for a page of a shape.
    fn missing_rooms(&self) -> Vec<String> {
        let mut missing = Vec::new();
        for room in ROOMS {
            for shape in SHAPES.into_iter().filter(|shape| shape.takes(room)) {
                for kind in KINDS {
                    if self.rooms[room as usize][shape as usize][kind as usize] == 0 {
                        let (lent, of, bits) = (room.text(), shape.text(), kind.bits());
                        missing.push(format!("room of write: {lent}, for {of}, {bits}-bit"));
                    }
                }
            }
        }
        missing
    }

    /// Every line that a call of a kind has never given though it should, and
    /// every vector's line that it has given of no later vector; and what else
    /// is counted.
    pub fn missing(&self) -> Vec<String> {
        let mut missing = self.missing_rooms();
        missing.extend(self.missing_sights());
        missing.extend(self.missing_edges());
        missing.extend(self.missing_fates());
        missing.extend(self.missing_widths());
        for kind in KINDS.into_iter().filter(|kind| self.spared[*kind as usize] == 0) {
            missing.push(format!("a vector of a page that read refuses, {}-bit", kind.bits()));
        }
        let done = (0, "done", &CALLS[..], false, &self.done);
        let lines = TABLE.iter().zip(&self.refused);
        let refused = lines.map(|(l, counts)| (l.row, l.text, l.given_by, l.of_vector, counts));
        let lines = TRACES.iter().zip(&self.traces);
        let traces = lines.map(|((t, text), counts)| (17, *text, t.shown_by(), false, counts));
        let all = std::iter::once(done).chain(refused).chain(traces);
        for (row, text, given_by, of_vector, counts) in all {
            for call in given_by {
                for kind in KINDS {
                    if counts.by[*call as usize][kind as usize] == 0 {
                        let (call, bits) = (call.name(), kind.bits());
                        missing.push(format!("row {row} ({text}) by {call}, {bits}-bit"));
                    }
                }
                if of_vector && counts.later[*call as usize] == 0 {
                    missing
                        .push(format!("row {row} ({text}) by {} of a later vector", call.name()));
                }
            }
        }
        missing
    }

    /// The table of counts, as a person reads it.
    pub fn table(&self) -> String {
        let mut text = format!("{:>3}  {:<32}", "row", "given when");
        for call in CALLS {
            for kind in KINDS {
                let _ = write!(text, "{:>10}", format!("{}{}", call.name(), kind.bits()));
            }
        }
        let _ = writeln!(text, "{:>14}", "later vectors");
        push_line(&mut text, 0, "done", &CALLS, None, &self.done);
        for (line, counts) in TABLE.iter().zip(&self.refused) {
            let later = line.of_vector.then(|| counts.later.iter().sum());
            push_line(&mut text, line.row, line.text, line.given_by, later, counts);
        }
        text.push_str("\nwhat pages made for row 17 showed\n");
        for ((trace, when), counts) in TRACES.iter().zip(&self.traces) {
            push_line(&mut text, 17, when, trace.shown_by(), None, counts);
        }
        text.push('\n');
        let [single, double] = self.spared;
        let _ = writeln!(
            text,
            "vectors done of pages that read refuses: {single} 32-bit, {double} 64-bit"
        );
        for kind in KINDS {
            for (least, counts, what) in self.widths(kind) {
                let (pages, most) = (counts.iter().sum::<u64>(), kind.bits());
                let _ =
                    writeln!(text, "pages {what} at widths {least} to {most}, {most}-bit: {pages}");
            }
        }
        text.push_str(&self.table_of_rooms());
        text.push_str(&self.table_of_sights());
        text.push_str(&self.table_of_edges());
        text.push_str(&self.table_of_fates());
        text
    }

    /// What the values written showed of the fast rounding.
    fn table_of_edges(&self) -> String {
        let mut text = String::from("\nvalues written, 32 and 64 bits\n");
        for edge in EDGES {
            let [single, double] = self.edges[edge as usize];
            let _ = writeln!(text, "{:<36}{single:>8}{double:>8}", edge.text());
        }
        for kind in KINDS {
            let powers = edges::powers(kind);
            let (from, to, bits) = (powers.start(), powers.end() + 1, kind.bits());
            let least = powers.clone().map(|power| self.powers[kind as usize][power]).min();
            let least = least.unwrap_or(0);
            let _ = writeln!(
                text,
                "moved from 2^{from} to 2^{to}, {bits}-bit: {least} or more between two powers"
            );
        }
        text
    }

    /// What became of the older pages.
    fn table_of_fates(&self) -> String {
        let mut text = String::from("\nolder pages, 32 and 64 bits; later vectors\n");
        for fate in FATES {
            let ([single, double], later) =
                (self.fates[fate as usize], self.later_fates[fate as usize]);
            let later = if fate == Fate::Kept { "-".into() } else { later.to_string() };
            let _ = writeln!(text, "{:<36}{single:>8}{double:>8}{later:>8}", fate.text());
        }
        text
    }

    /// What the vectors to choose for showed: how often of 32-bit values, and
    /// of 64-bit ones.
    fn table_of_sights(&self) -> String {
        let mut text = String::from("\nvectors to choose for, 32 and 64 bits\n");
        for sight in SIGHTS {
            let [single, double] = self.sights[sight as usize];
            let _ = writeln!(text, "{:<36}{single:>8}{double:>8}", sight.text());
        }
        text
    }

    /// What was lent to the writer, by the shape of the page: how often of
    /// 32-bit values, and of 64-bit ones.
    fn table_of_rooms(&self) -> String {
        let mut text = format!("\n{:<30}", "room of write, 32 and 64 bits");
        for shape in SHAPES {
            let _ = write!(text, "{:>18}", shape.text());
        }
        text.push('\n');
        for room in ROOMS {
            let _ = write!(text, "{:<30}", room.text());
            for shape in SHAPES {
                let [single, double] = self.rooms[room as usize][shape as usize];
                let met = format!("{single} {double}");
                let cell = if shape.takes(room) { met } else { "-".into() };
                let _ = write!(text, "{cell:>18}");
            }
            text.push('\n');
        }
        text
    }
}

/// One line; a dash where the row is given by other calls alone.
fn push_line(
    text: &mut String,
    row: u64,
    when: &str,
    given_by: &[Call],
    later: Option<u64>,
    counts: &Counts,
) {
    let _ = write!(text, "{row:>3}  {when:<32}");
    for call in CALLS {
        for kind in KINDS {
            let count = counts.by[call as usize][kind as usize];
            let cell = if given_by.contains(&call) { count.to_string() } else { "-".into() };
            let _ = write!(text, "{cell:>10}");
        }
    }
    let later = later.map_or("-".into(), |later| later.to_string());
    let _ = writeln!(text, "{later:>14}");
}

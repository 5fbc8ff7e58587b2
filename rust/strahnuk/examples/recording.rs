//! Tells the story of link/recording.c through the wrapper, in the same words: recorded columns of both kinds are measured, written,
//! examined and read, whole and by the vector, pairs are chosen for them, refusals come where they should, and the host's floating-point
//! environment changes nothing. Every byte and every bit is compared with what stands written here; the first thing that fails ends the
//! program. link/run compares the two programs' lines.
use std::arch::asm;
use std::fmt::Debug;
use strahnuk::*;

/// A column, its settings, the pairs that are chosen for it, and its page, as hexadecimal digits.
struct Recording<B> {
    name: &'static str,
    s: u8,
    /// One for each vector.
    pairs: Vec<Pair>,
    chosen: Vec<Pair>,
    values: Vec<B>,
    page: &'static str,
}

type Outcome = Result<usize, Refusal>;

/// The calls of one kind, so that the story is written once.
struct Kind<B> {
    bits: usize,
    metadata: usize,
    /// What lies in an output before the call.
    mark: B,
    measure: fn(&[B], u8, &[Pair]) -> Outcome,
    write_into: fn(&[B], u8, &[Pair], &mut [u8]) -> Outcome,
    read_into: fn(&[u8], &mut [B]) -> Outcome,
    read_vector_into: fn(&[u8], usize, &mut [B]) -> Outcome,
    examine: fn(&[u8]) -> Outcome,
    choose: fn(&[B]) -> Result<Pair, Refusal>,
    choose_pairs: fn(&[B], u8) -> Result<Vec<Pair>, Refusal>,
}

const SINGLE: Kind<u32> = Kind {
    bits: 32,
    metadata: 9,
    mark: 0xA5A5_A5A5,
    measure: measure32,
    write_into: write_into32,
    read_into: read_into32,
    read_vector_into: read_vector_into32,
    examine: examine32,
    choose: choose32,
    choose_pairs: choose_pairs32,
};

const DOUBLE: Kind<u64> = Kind {
    bits: 64,
    metadata: 13,
    mark: 0xA5A5_A5A5_A5A5_A5A5,
    measure: measure64,
    write_into: write_into64,
    read_into: read_into64,
    read_vector_into: read_vector_into64,
    examine: examine64,
    choose: choose64,
    choose_pairs: choose_pairs64,
};

/// More than any page or column here needs, so that there is something behind each that must stay as it came.
const ROOM: usize = 256;
const UNTOUCHED: u8 = 0xA5;

fn refused(row: Row) -> Outcome {
    Err(Refusal { row, vector: 0, place: 0 })
}

impl<B> Kind<B> {
    /// Document 01's bound: no page of so many values and vectors is longer.
    fn upper_limit(&self, recording: &Recording<B>) -> usize {
        let (vectors, values) = (recording.pairs.len(), recording.values.len());
        8 + vectors * (4 + self.metadata) + values * (2 * self.bits / 8 + 2)
    }
}

impl<B: Copy + PartialEq + Debug> Kind<B> {
    /// Reads the page, or that vector alone.
    fn read(&self, page: &[u8], number: Option<usize>, out: &mut [B]) -> Outcome {
        match number {
            None => (self.read_into)(page, out),
            Some(number) => (self.read_vector_into)(page, number, out),
        }
    }

    /// Reading gives these values, and what lies past them stays.
    #[track_caller]
    fn expect_values(&self, page: &[u8], number: Option<usize>, values: &[B], name: &str) {
        let mut out = vec![self.mark; ROOM];
        assert_eq!(self.read(page, number, &mut out), Ok(values.len()), "{}: read", name);
        let (back, rest) = out.split_at(values.len());
        assert_eq!(back, values, "{}: a value comes back with other bits", name);
        assert!(
            rest.iter().all(|&value| value == self.mark),
            "{}: a value past those read was changed",
            name
        );
    }

    /// Reading into `room` values is refused so, and the output stays.
    #[track_caller]
    fn expect_unread(
        &self,
        page: &[u8],
        number: Option<usize>,
        room: usize,
        expected: Outcome,
        name: &str,
    ) {
        let mut out = vec![self.mark; ROOM];
        assert_eq!(self.read(page, number, &mut out[..room]), expected, "{}: read", name);
        assert_eq!(out, vec![self.mark; ROOM], "{}: a refused read changed the output", name);
    }
}

fn hexadecimal(bytes: &[u8]) -> String {
    let digits: Vec<String> = bytes.iter().map(|byte| format!("{:02X}", byte)).collect();
    digits.join(" ")
}

/// Prints what was shown, and counts it.
struct Teller {
    shown: u32,
}

impl Teller {
    fn show(&mut self, name: &str, bits: usize, what: &str) {
        println!("{}, {}-bit: {}", name, bits, what);
        self.shown += 1;
    }

    fn show_vector(&mut self, name: &str, bits: usize, number: usize, count: usize, what: &str) {
        println!("{}, {}-bit, vector {}, count {}: {}", name, bits, number, count, what);
        self.shown += 1;
    }

    fn tell<B: Copy + PartialEq + Debug>(&mut self, kind: &Kind<B>, recording: &Recording<B>) {
        let page = self.tell_written(kind, recording);
        self.tell_rooms(kind, recording, &page);
        self.tell_read(kind, recording, &page);
        self.tell_vectors(kind, recording, &page);
        self.tell_chosen(kind, recording, &page);
        self.tell_refused(kind, recording, &page);
    }

    fn tell_written<B: Copy>(&mut self, kind: &Kind<B>, recording: &Recording<B>) -> Vec<u8> {
        let Recording { name, s, ref pairs, ref values, page, .. } = *recording;
        let limit = kind.upper_limit(recording);
        let mut out = vec![UNTOUCHED; ROOM];
        let length = (kind.write_into)(values, s, pairs, &mut out).expect(name);
        assert_eq!((kind.measure)(values, s, pairs), Ok(length), "{}: measure", name);
        assert!(length <= limit, "{}: the page is longer than any may be", name);
        assert_eq!(hexadecimal(&out[..length]), page, "{}: write", name);
        assert!(
            out[length..].iter().all(|&byte| byte == UNTOUCHED),
            "{}: a byte past the page was changed",
            name
        );
        let line = format!(
            "count {}, page {} as measured, at most {}: {}",
            values.len(),
            length,
            limit,
            hexadecimal(&out[..length])
        );
        self.show(name, kind.bits, &line);
        out.truncate(length);
        out
    }

    /// Every length is lent, from nothing to more than the upper limit: the page's own alone decides.
    fn tell_rooms<B: Copy>(&mut self, kind: &Kind<B>, recording: &Recording<B>, page: &[u8]) {
        let Recording { name, s, ref pairs, ref values, .. } = *recording;
        assert!(
            kind.upper_limit(recording) < ROOM,
            "{}: the rooms end below the upper limit",
            name
        );
        for length in 0..=ROOM {
            let mut out = vec![UNTOUCHED; length];
            let written = (kind.write_into)(values, s, pairs, &mut out);
            if length < page.len() {
                assert_eq!(written, refused(Row::OutputTooShort), "{}: write", name);
                assert_eq!(out, vec![UNTOUCHED; length], "{}: a refused write", name);
            } else {
                assert_eq!(written, Ok(page.len()), "{}: write", name);
                let rest = vec![UNTOUCHED; length - page.len()];
                assert_eq!(out, [page, &rest].concat(), "{}: the page in other room", name);
            }
        }
        self.show(
            name,
            kind.bits,
            "15, the lent output is too short, by one byte and by more; the output stays",
        );
        self.show(
            name,
            kind.bits,
            "the page's own length is room enough, and so is every longer one",
        );
    }

    fn tell_read<B: Copy + PartialEq + Debug>(
        &mut self,
        kind: &Kind<B>,
        recording: &Recording<B>,
        page: &[u8],
    ) {
        let Recording { name, ref values, .. } = *recording;
        assert_eq!((kind.examine)(page), Ok(values.len()), "{}: examine", name);
        self.show(name, kind.bits, "examined, it is a page");
        kind.expect_values(page, None, values, name);
        self.show(
            name,
            kind.bits,
            "every bit comes back, and what lies past the page and the column stays",
        );
    }

    fn tell_vectors<B: Copy + PartialEq + Debug>(
        &mut self,
        kind: &Kind<B>,
        recording: &Recording<B>,
        page: &[u8],
    ) {
        let Recording { name, ref pairs, .. } = *recording;
        for number in 0..pairs.len() {
            self.tell_vector(kind, recording, page, number);
        }
        for number in [pairs.len(), usize::MAX] {
            kind.expect_unread(page, Some(number), ROOM, refused(Row::NoSuchVector), name);
        }
        self.show(
            name,
            kind.bits,
            "30, there is no vector of that number, behind the last; the output stays",
        );
    }

    /// Offsets here are below 256, so each is changed by its first byte.
    fn tell_vector<B: Copy + PartialEq + Debug>(
        &mut self,
        kind: &Kind<B>,
        recording: &Recording<B>,
        page: &[u8],
        number: usize,
    ) {
        let Recording { name, s, ref pairs, ref values, .. } = *recording;
        let stretch = values.chunks(1 << s).nth(number).expect(name);
        let (alone, count) = (Some(number), stretch.len());
        let mut show = |what: &str| self.show_vector(name, kind.bits, number, count, what);
        kind.expect_values(page, alone, stretch, name);
        show("every bit comes back, and what lies past it stays");
        kind.expect_unread(page, alone, count - 1, refused(Row::OutputTooShort), name);
        show("15, the lent output is too short, by one value; the output stays");

        let elsewhere = Err(Refusal { row: Row::Offset, vector: number as u64, place: 0 });
        let mut changed = page.to_vec();
        changed[8 + 4 * number] = 4 * pairs.len() as u8 - 1;
        kind.expect_unread(&changed, alone, ROOM, elsewhere, name);
        let mut changed = page.to_vec();
        if number + 1 == pairs.len() {
            changed.push(0);
        } else {
            changed[8 + 4 * (number + 1)] += 1;
        }
        kind.expect_unread(&changed, alone, ROOM, elsewhere, name);
        show(
            "8, an offset differs from the layout's, at its start or at its end; the output stays",
        );
    }

    /// Each pair is the one that stands written here, and the page with the chosen ones is no longer.
    fn tell_chosen<B: Copy>(&mut self, kind: &Kind<B>, recording: &Recording<B>, page: &[u8]) {
        let Recording { name, s, ref chosen, ref values, .. } = *recording;
        for (number, stretch) in values.chunks(1 << s).enumerate() {
            let pair = (kind.choose)(stretch).expect(name);
            assert_eq!(pair, chosen[number], "{}: another pair is chosen", name);
            let Pair { exponent, factor } = pair;
            let line = format!("exponent {} and factor {} are chosen", exponent, factor);
            self.show_vector(name, kind.bits, number, stretch.len(), &line);
        }
        assert_eq!((kind.choose_pairs)(values, s).as_ref(), Ok(chosen), "{}: choose", name);
        let length = (kind.measure)(values, s, chosen).expect(name);
        assert!(length <= page.len(), "{}: the page with the chosen pairs is longer", name);
        let line = format!("with the chosen pairs the page has {} bytes", length);
        self.show(name, kind.bits, &line);
    }

    fn tell_refused<B: Copy + PartialEq + Debug>(
        &mut self,
        kind: &Kind<B>,
        recording: &Recording<B>,
        page: &[u8],
    ) {
        let Recording { name, ref values, .. } = *recording;
        kind.expect_unread(page, None, values.len() - 1, refused(Row::OutputTooShort), name);
        self.show(
            name,
            kind.bits,
            "15, the lent output is too short, by one value; the output stays",
        );

        let longer = [page, &[0]].concat();
        assert_eq!(
            (kind.examine)(&longer),
            refused(Row::BytesAfter),
            "{}: examine with one byte more",
            name
        );
        kind.expect_unread(&longer, None, ROOM, refused(Row::BytesAfter), name);
        self.show(
            name,
            kind.bits,
            "14, bytes after the last vector, by one byte; the output stays",
        );
    }

    fn tell_empty<B: Copy>(&mut self, kind: &Kind<B>) {
        let mut page = vec![UNTOUCHED; ROOM];
        assert_eq!((kind.measure)(&[], 10, &[]), Ok(8));
        assert_eq!((kind.write_into)(&[], 10, &[], &mut []), refused(Row::OutputTooShort));
        assert_eq!((kind.write_into)(&[], 10, &[], &mut page[..7]), refused(Row::OutputTooShort));
        assert_eq!(page, vec![UNTOUCHED; ROOM], "a refused write changed the output");
        assert_eq!((kind.write_into)(&[], 10, &[], &mut page[..8]), Ok(8));
        assert_eq!(hexadecimal(&page[..8]), "01 00 00 0A 00 00 00 00");
        assert!(
            page[8..].iter().all(|&byte| byte == UNTOUCHED),
            "a byte past the page was changed"
        );
        assert_eq!((kind.read_into)(&page[..8], &mut []), Ok(0));
        assert_eq!((kind.examine)(&page[..8]), Ok(0));
        self.show("nothing", kind.bits, "no values give the header alone, and come back");
        assert_eq!((kind.read_vector_into)(&page[..8], 0, &mut []), refused(Row::NoSuchVector));
        self.show("nothing", kind.bits, "30, there is no vector of that number, not even 0");
        assert_eq!((kind.examine)(&[]), refused(Row::FewBytes));
        assert_eq!((kind.read_into)(&[], &mut []), refused(Row::FewBytes));
        assert_eq!((kind.read_vector_into)(&[], 0, &mut []), refused(Row::FewBytes));
        self.show("nothing", kind.bits, "1, fewer than 8 bytes");
    }

    /// No values, and one more than a vector has.
    fn tell_unchosen<B: Copy + Default>(&mut self, kind: &Kind<B>) {
        let zeros = vec![B::default(); MOST_IN_VECTOR + 1];
        let expected = Refusal { row: Row::NotOneVector, vector: 0, place: 0 };
        assert_eq!((kind.choose)(&[]), Err(expected));
        assert_eq!((kind.choose)(&zeros), Err(expected));
        assert_eq!((kind.choose)(&zeros[1..]), Ok(Pair::default()));
        self.show(
            "zeros",
            kind.bits,
            "31, no values, or more than 1,024, when choosing; of 1,024 the pair is 0, 0",
        );
    }

    /// Two fields, 0 and 1, above the largest whole number of the kind: the second sum is one too large. With a frame one less both are
    /// read.
    fn tell_beyond<B: Copy + PartialEq + Debug>(&mut self, kind: &Kind<B>) {
        let start = [1, 0, 0, 10, 2, 0, 0, 0, 4, 0, 0, 0, 0, 0, 0, 0];
        let mut page = [&start[..], &vec![0xFF; kind.bits / 8 - 1], &[0x7F, 1, 2]].concat();
        let beyond = Err(Refusal { row: Row::SumOutOfRange, vector: 0, place: 1 });
        for number in [None, Some(0)] {
            kind.expect_unread(&page, number, ROOM, beyond, "beyond");
        }
        assert_eq!((kind.examine)(&page), beyond);
        self.show(
            "beyond",
            kind.bits,
            "17, frame plus field leaves the kind's signed range, by one at position 1; the output stays",
        );
        page[start.len()] -= 1;
        for number in [None, Some(0)] {
            assert_eq!(kind.read(&page, number, &mut [kind.mark; ROOM]), Ok(2));
        }
        self.show("beyond", kind.bits, "the largest whole number is read");
    }

    fn tell_floats(&mut self) {
        const UPWARD_WITH_TRAPS: u32 = 0x4000;
        let column = [0.1, 0.7, 1.23, 4.56, 7.89, 0.29, 1.1, 2.2].map(f64::to_bits);
        let pairs = [Pair { exponent: 2, factor: 0 }];
        let (mut page, mut back, mut alone) = ([UNTOUCHED; ROOM], [0; 8], [0; 8]);
        let plain = write64(&column, 3, &pairs).expect("floats");
        let plainly = choose64(&column).expect("floats");
        let was = exchange_mxcsr(UPWARD_WITH_TRAPS);
        let written = write_into64(&column, 3, &pairs, &mut page);
        let read = read_into64(&page[..written.unwrap_or(0)], &mut back);
        let vector = read_vector_into64(&page[..written.unwrap_or(0)], 0, &mut alone);
        let chosen = choose64(&column);
        let left = exchange_mxcsr(was);
        assert_eq!(
            left, UPWARD_WITH_TRAPS,
            "the environment was not restored, or a sticky flag was left"
        );
        assert_eq!(written, Ok(plain.len()));
        assert_eq!(page[..plain.len()], plain, "the pages differ");
        assert_eq!((read, vector), (Ok(column.len()), Ok(column.len())));
        assert_eq!(chosen, Ok(plainly), "another pair is chosen");
        assert_eq!((back, alone), (column, column), "a value comes back with other bits");
        self.show(
            "floats",
            64,
            "upward rounding and traps of the host change no byte, and stand afterwards",
        );
    }

    /// The rows' sentences, so that the comparison with the C program covers its header's too.
    fn tell_sentences(&mut self) {
        for row in (1..100).filter_map(Row::from_number) {
            println!("row {}: {}", row.number(), row.sentence());
            self.shown += 1;
        }
    }
}

/// Sets the floating-point environment, and gives the one before: here this program plays a host that rounds upward and traps.
fn exchange_mxcsr(value: u32) -> u32 {
    let mut was = 0_u32;
    // SAFETY: each instruction moves four bytes, and each variable has four. Until the environment is set back, this program itself does
    // no arithmetic on floats.
    unsafe {
        asm!("stmxcsr [{}]", "ldmxcsr [{}]", in(reg) &mut was, in(reg) &value, options(nostack));
    }
    was
}

/// 0.0 to 5.0 by halves, but for a negative zero in the second of two vectors, whose other values are whole.
const HALVES: [f32; 11] = [0.0, 0.5, 1.0, 1.5, 2.0, 2.5, 3.0, 3.5, 4.0, -0.0, 5.0];

/// R1, R2; negative zero, a NaN with a payload, both infinities, 1.5 and the smallest subnormal, all but 1.5 exceptions; halves; and R8's
/// 2^22 + 1, an exception, since the fast rounding ends on even numbers there, with the next even number and its own negative, which are none.
fn singles() -> [Recording<u32>; 5] {
    [
        Recording {
            name: "R1",
            s: 10,
            pairs: vec![Pair { exponent: 2, factor: 0 }],
            chosen: vec![Pair { exponent: 2, factor: 0 }],
            values: [1.23_f32, 4.56, 7.89, 0.12].map(f32::to_bits).to_vec(),
            page: "01 00 00 0A 04 00 00 00 04 00 00 00 02 00 00 00 0C 00 00 00 0A 6F F0 96 30 00",
        },
        Recording {
            name: "R2",
            s: 10,
            pairs: vec![Pair { exponent: 1, factor: 0 }],
            chosen: vec![Pair { exponent: 1, factor: 0 }],
            values: vec![0x3FC0_0000, 0x7FC0_0000, 0x4020_0000, 0x3EAA_AAAB],
            page: "01 00 00 0A 04 00 00 00 04 00 00 00 01 00 02 00 0F 00 00 00 04 00 0A 01 00 03 00 00 00 C0 7F AB AA AA 3E",
        },
        Recording {
            name: "specials",
            s: 3,
            pairs: vec![Pair { exponent: 1, factor: 0 }],
            chosen: vec![Pair { exponent: 1, factor: 0 }],
            values: vec![0x8000_0000, 0x7FA1_2345, 0x7F80_0000, 0xFF80_0000, 0x3FC0_0000, 0x0000_0001],
            page: "01 00 00 03 06 00 00 00 04 00 00 00 01 00 05 00 0F 00 00 00 00 00 00 01 00 02 00 03 00 05 00 \
                   00 00 00 80 45 23 A1 7F 00 00 80 7F 00 00 80 FF 01 00 00 00",
        },
        Recording {
            name: "halves",
            s: 3,
            pairs: vec![Pair { exponent: 1, factor: 0 }; 2],
            chosen: vec![Pair { exponent: 1, factor: 0 }, Pair { exponent: 0, factor: 0 }],
            values: HALVES.map(f32::to_bits).to_vec(),
            page: "01 00 00 03 0B 00 00 00 08 00 00 00 17 00 00 00 01 00 00 00 00 00 00 00 06 40 A1 3C 54 E6 8D \
                   01 00 01 00 28 00 00 00 04 00 0A 01 00 00 00 00 80",
        },
        Recording {
            name: "rounding",
            s: 10,
            pairs: vec![Pair { exponent: 0, factor: 0 }],
            chosen: vec![Pair { exponent: 1, factor: 0 }],
            values: [4_194_305.0_f32, 4_194_306.0, -4_194_305.0].map(f32::to_bits).to_vec(),
            page: "01 00 00 0A 03 00 00 00 04 00 00 00 00 00 01 00 FF FF BF FF 18 03 00 80 03 00 80 00 00 00 00 00 02 00 80 4A",
        },
    ]
}

/// R7, and the same special values and halves in 64 bits, and the rounding from 2^51 on.
fn doubles() -> [Recording<u64>; 4] {
    [
        Recording {
            name: "R7",
            s: 10,
            pairs: vec![Pair { exponent: 1, factor: 0 }],
            chosen: vec![Pair { exponent: 1, factor: 0 }],
            values: vec![1.5_f64.to_bits()],
            page: "01 00 00 0A 01 00 00 00 04 00 00 00 01 00 00 00 0F 00 00 00 00 00 00 00 00",
        },
        Recording {
            name: "specials",
            s: 3,
            pairs: vec![Pair { exponent: 1, factor: 0 }],
            chosen: vec![Pair { exponent: 1, factor: 0 }],
            values: vec![
                0x8000_0000_0000_0000,
                0xFFF1_2345_6789_ABCD,
                0x7FF0_0000_0000_0000,
                0xFFF0_0000_0000_0000,
                0x3FF8_0000_0000_0000,
                0x0000_0000_0000_0001,
            ],
            page: "01 00 00 03 06 00 00 00 04 00 00 00 01 00 05 00 0F 00 00 00 00 00 00 00 00 00 00 01 00 02 00 03 00 05 00 \
                   00 00 00 00 00 00 00 80 CD AB 89 67 45 23 F1 FF 00 00 00 00 00 00 F0 7F 00 00 00 00 00 00 F0 FF \
                   01 00 00 00 00 00 00 00",
        },
        Recording {
            name: "halves",
            s: 3,
            pairs: vec![Pair { exponent: 1, factor: 0 }; 2],
            chosen: vec![Pair { exponent: 1, factor: 0 }, Pair { exponent: 0, factor: 0 }],
            values: HALVES.map(|value| f64::from(value).to_bits()).to_vec(),
            page: "01 00 00 03 0B 00 00 00 08 00 00 00 1B 00 00 00 01 00 00 00 00 00 00 00 00 00 00 00 06 40 A1 3C 54 E6 8D \
                   01 00 01 00 28 00 00 00 00 00 00 00 04 00 0A 01 00 00 00 00 00 00 00 00 80",
        },
        Recording {
            name: "rounding",
            s: 10,
            pairs: vec![Pair { exponent: 0, factor: 0 }],
            chosen: vec![Pair { exponent: 2, factor: 1 }],
            values: [2_251_799_813_685_249.0_f64, 2_251_799_813_685_250.0, -2_251_799_813_685_249.0].map(f64::to_bits).to_vec(),
            page: "01 00 00 0A 03 00 00 00 04 00 00 00 00 00 01 00 FF FF FF FF FF FF F7 FF 35 03 00 00 00 00 00 70 00 00 00 00 00 00 02 \
                   00 00 00 00 00 00 00 00 02 00 00 00 00 00 20 43",
        },
    ]
}

fn main() {
    let mut teller = Teller { shown: 0 };
    for recording in &singles() {
        teller.tell(&SINGLE, recording);
    }
    for recording in &doubles() {
        teller.tell(&DOUBLE, recording);
    }
    teller.tell_empty(&SINGLE);
    teller.tell_empty(&DOUBLE);
    teller.tell_unchosen(&SINGLE);
    teller.tell_unchosen(&DOUBLE);
    teller.tell_beyond(&SINGLE);
    teller.tell_beyond(&DOUBLE);
    teller.tell_floats();
    teller.tell_sentences();
    println!("{} things shown", teller.shown);
}

//! What is timed: one input for both programs, and what it must answer.

use std::hint::black_box;

use product::{LentCounters, TRILL_FRAME_MOST, TRILL_PREPARED_WORDS, TRILL_READER_WORDS};
use reference::{Answer, Counters, Prepared, Reader};

use crate::octets::{self, Campus, Layout, Own, CLOCK, STRIPPED};

/// Least output buffer of a handling.
const ROOM: usize = 2048;
/// Least second output buffer.
const BESIDE: usize = 576;
/// Trace buffer that suffices for every run.
const TRACE: usize = 32_768;
const RECORDS: [usize; 3] = [1, 8, 64];
/// In how many bursts a frame of 1,500 octets is read.
const BURSTS: [usize; 3] = [1, 4, 24];

/// Who does it.
#[derive(Clone, Copy)]
pub enum Program {
    /// The proved library, through its C symbols.
    Proved,
    /// The second program.
    Second,
    /// A plain copy of the frame, once for each handling, as the limit.
    Copy,
}

pub struct Case {
    pub name: String,
    pub records: usize,
    /// The frame that is handled, in a run at first.
    pub frame: Vec<u8>,
    call: Call,
}

enum Call {
    Handling {
        settings: Vec<u8>,
        expected: Expected,
    },
    /// Settings prepared once, by each program in its own way.
    Prepared {
        store: Box<[u64; TRILL_PREPARED_WORDS]>,
        prepared: Box<Prepared>,
        expected: Expected,
    },
    /// The same, counted.
    Counted {
        settings: Vec<u8>,
        expected: Expected,
    },
    /// The same by a reader: its start, so many bursts, and the mark.
    Bursts {
        settings: Vec<u8>,
        expected: Expected,
        bursts: usize,
    },
    Run {
        description: Vec<u8>,
        count: u32,
    },
}

/// So that no case times another answer than its name says.
#[derive(Clone, Copy, Debug, PartialEq)]
struct Expected {
    number: u16,
    written: usize,
}

/// Frames of one kind.
struct Kind {
    name: &'static str,
    sizes: &'static [usize],
    frame: fn(usize) -> Vec<u8>,
    expected: fn(usize) -> Expected,
}

const ALL_SIZES: &[usize] = &[64, 200, 600, 1500, 2048];

const KINDS: [Kind; 7] = [
    Kind {
        name: "forward",
        sizes: ALL_SIZES,
        frame: octets::transit,
        expected: |size| Expected::new(50, size),
    },
    // An area of 31 words has 124 octets.
    Kind {
        name: "strip",
        sizes: &[200, 600, 1500, 2048],
        frame: octets::transit_stripped,
        expected: |size| Expected::new(50, size - STRIPPED),
    },
    Kind {
        name: "deliver",
        sizes: ALL_SIZES,
        frame: octets::ordinary,
        expected: |_| Expected::new(51, 0),
    },
    // An echo body has at most 530 octets.
    Kind {
        name: "echo",
        sizes: &[64, 200, 600],
        frame: octets::echo,
        expected: |size| Expected::new(54, size.min(572)),
    },
    Kind {
        name: "error",
        sizes: ALL_SIZES,
        frame: octets::faulty,
        expected: |size| Expected::new(53, 42 + (size - 12).min(128)),
    },
    // An echo request in transit with an alert: forwarded and answered.
    Kind {
        name: "beside",
        sizes: &[64, 200, 576],
        frame: octets::alerted,
        expected: |size| Expected::new(50, size),
    },
    Kind {
        name: "drop",
        sizes: ALL_SIZES,
        frame: octets::foreign,
        expected: |_| Expected::new(11, 0),
    },
];

impl Expected {
    fn new(number: u16, written: usize) -> Self {
        Expected { number, written }
    }
}

impl Kind {
    fn own(&self) -> Own {
        match self.name {
            "strip" => Own::Stripping,
            "beside" => Own::Edition2,
            _ => Own::Plain,
        }
    }

    fn case(&self, size: usize, records: usize, layout: Layout) -> Case {
        // A tag makes what is written longer.
        let (suffix, tag) = match layout {
            Layout::Scattered => ("", 0),
            Layout::Rising => ("-rising", 0),
            Layout::Crowded => ("-crowded", 0),
            Layout::Tagged => ("-tagged", 4),
        };
        let Expected { number, written } = (self.expected)(size);
        Case {
            name: format!("{}-{size}-{records}{suffix}", self.name),
            records,
            frame: (self.frame)(size),
            call: Call::Handling {
                settings: octets::settings(records, layout, self.own()),
                expected: Expected::new(number, written + tag),
            },
        }
    }

    fn prepared(&self, size: usize, records: usize) -> Case {
        let settings = octets::settings(records, Layout::Scattered, self.own());
        let mut store = Box::new([0; TRILL_PREPARED_WORDS]);
        assert_eq!(product::prepare(&settings, &mut store[..]), 0);
        let Ok(prepared) = Prepared::new(&settings) else {
            panic!("{}: settings are bad", self.name)
        };
        Case {
            name: format!("prepared-{}-{size}-{records}", self.name),
            records,
            frame: (self.frame)(size),
            call: Call::Prepared {
                store,
                prepared: Box::new(prepared),
                expected: (self.expected)(size),
            },
        }
    }
}

/// Each kind, size and number of records; some of them prepared; three other
/// layouts of 64 records; a frame counted, and in bursts; the runs.
pub fn all() -> Vec<Case> {
    let mut cases = Vec::new();
    for kind in &KINDS {
        for &size in kind.sizes {
            cases.extend(RECORDS.map(|records| kind.case(size, records, Layout::Scattered)));
        }
    }
    for (kind, size) in [(0, 64), (0, 1500), (1, 1500), (2, 1500), (3, 200)] {
        cases.extend(RECORDS.map(|records| KINDS[kind].prepared(size, records)));
    }
    for layout in [Layout::Rising, Layout::Crowded, Layout::Tagged] {
        cases.push(KINDS[0].case(1500, 64, layout));
    }
    cases.push(counted(&KINDS[0], 1500, 8));
    cases.extend(BURSTS.map(|bursts| in_bursts(&KINDS[0], 1500, 8, bursts)));
    cases.extend([
        run("c1", Campus::c1(), 4),
        run("c11", Campus::c11(), 65),
        run("run80-60", Campus::longest(60), 80),
        run("run80-572", Campus::longest(572), 80),
        run("run4096", Campus::waiting(), 4096),
    ]);
    cases
}

fn counted(kind: &Kind, size: usize, records: usize) -> Case {
    Case {
        name: format!("counted-{size}-{records}"),
        records,
        frame: (kind.frame)(size),
        call: Call::Counted {
            settings: octets::settings(records, Layout::Scattered, Own::Plain),
            expected: (kind.expected)(size),
        },
    }
}

fn in_bursts(kind: &Kind, size: usize, records: usize, bursts: usize) -> Case {
    Case {
        name: format!("bursts-{size}-{records}-{bursts}"),
        records,
        frame: (kind.frame)(size),
        call: Call::Bursts {
            settings: octets::settings(records, Layout::Scattered, Own::Plain),
            expected: (kind.expected)(size),
            bursts,
        },
    }
}

fn run(name: &str, campus: Campus, count: u32) -> Case {
    Case {
        name: name.into(),
        records: campus.records,
        frame: campus.frame,
        call: Call::Run {
            description: campus.description,
            count,
        },
    }
}

impl Case {
    /// Both programs must answer and write the same, and what is expected.
    pub fn check(&self) {
        match &self.call {
            Call::Handling { settings, expected } => {
                let (mut proved, mut second) = (Lent::new(), Lent::new());
                let answer = proved.by(product::handle, &self.frame, settings);
                let other = second.by(reference::handle, &self.frame, settings);
                self.agree((answer, &proved), (other, &second), expected);
            }
            Call::Counted { settings, expected } => {
                let mut proved = Counting::<LentCounters>::new();
                let mut second = Counting::<Counters>::new();
                let answer = proved.by(product::handle_counted_lent, &self.frame, settings);
                let other = second.by(reference::handle_counted, &self.frame, settings);
                self.agree((answer, &proved.lent), (other, &second.lent), expected);
                let counted = (proved.counters.total, second.counters.total);
                assert_eq!(counted, (1, 1), "{}", self.name);
            }
            Call::Bursts {
                settings,
                expected,
                bursts,
            } => {
                let (mut proved, mut second) = (Reading::new(), Lent::new());
                let answer = proved.read(&self.frame, settings, *bursts);
                let other = second.read(&self.frame, settings, *bursts);
                self.agree((answer, &proved.lent), (other, &second), expected);
            }
            Call::Prepared {
                store,
                prepared,
                expected,
            } => {
                let (mut proved, mut second) = (Lent::new(), Lent::new());
                let answer = proved.by_store(&self.frame, &store[..]);
                let other = second.by_prepared(&self.frame, prepared);
                self.agree((answer, &proved), (other, &second), expected);
            }
            Call::Run { description, count } => {
                let (mut proved, mut second) = ([0x5A; TRACE], [0x5A; TRACE]);
                let outcome = product::run(description, &mut proved);
                let other = reference::run(description, &mut second);
                assert_eq!(outcome, other, "{}", self.name);
                assert_eq!((outcome.code, outcome.count), (0, *count), "{}", self.name);
                assert!(proved == second, "{}: octets differ", self.name);
            }
        }
    }

    /// Both answers and what was written are the same, and what is expected.
    fn agree(&self, proved: (Answer, &Lent), second: (Answer, &Lent), expected: &Expected) {
        let answer = proved.0;
        assert_eq!(answer, second.0, "{}", self.name);
        let given = Expected::new(answer.number, answer.written.into());
        assert_eq!(given, *expected, "{}", self.name);
        assert!(proved.1 == second.1, "{}: octets differ", self.name);
    }

    /// Makes the call so many times. Neither inputs nor outputs are known to
    /// the compiler.
    pub fn repeat(&self, program: Program, times: u64) {
        match (&self.call, program) {
            (Call::Handling { settings, .. }, Program::Proved) => {
                let input = (&self.frame[..], &settings[..]);
                repeat(times, &input, Lent::new(), |(frame, settings), lent| {
                    lent.by(product::handle, frame, settings)
                });
            }
            (Call::Handling { settings, .. }, Program::Second) => {
                let input = (&self.frame[..], &settings[..]);
                repeat(times, &input, Lent::new(), |(frame, settings), lent| {
                    lent.by(reference::handle, frame, settings)
                });
            }
            (Call::Counted { settings, .. }, Program::Proved) => {
                let input = (&self.frame[..], &settings[..]);
                repeat(times, &input, Counting::new(), |(frame, settings), lent| {
                    lent.by(product::handle_counted_lent, frame, settings)
                });
            }
            (Call::Counted { settings, .. }, Program::Second) => {
                let input = (&self.frame[..], &settings[..]);
                repeat(times, &input, Counting::new(), |(frame, settings), lent| {
                    lent.by(reference::handle_counted, frame, settings)
                });
            }
            (
                Call::Bursts {
                    settings, bursts, ..
                },
                Program::Proved,
            ) => {
                let input = (&self.frame[..], &settings[..]);
                repeat(times, &input, Reading::new(), |(frame, settings), lent| {
                    lent.read(frame, settings, *bursts)
                });
            }
            (
                Call::Bursts {
                    settings, bursts, ..
                },
                Program::Second,
            ) => {
                let input = (&self.frame[..], &settings[..]);
                repeat(times, &input, Lent::new(), |(frame, settings), lent| {
                    lent.read(frame, settings, *bursts)
                });
            }
            (Call::Prepared { store, .. }, Program::Proved) => {
                let input = (&self.frame[..], &store[..]);
                repeat(times, &input, Lent::new(), |(frame, store), lent| {
                    lent.by_store(frame, store)
                });
            }
            (Call::Prepared { prepared, .. }, Program::Second) => {
                let input = (&self.frame[..], &**prepared);
                repeat(times, &input, Lent::new(), |(frame, prepared), lent| {
                    lent.by_prepared(frame, prepared)
                });
            }
            (Call::Run { description, .. }, Program::Proved) => {
                repeat(times, description, [0; TRACE], |description, trace| {
                    product::run(description, trace)
                });
            }
            (Call::Run { description, .. }, Program::Second) => {
                repeat(times, description, [0; TRACE], |description, trace| {
                    reference::run(description, trace)
                });
            }
            (call, Program::Copy) => {
                let times = times * call.handlings();
                repeat(times, &self.frame, [0; ROOM], |frame, room| {
                    room[..frame.len()].copy_from_slice(frame);
                });
            }
        }
    }
}

/// Both outputs of a handling.
#[derive(PartialEq)]
struct Lent {
    out: [u8; ROOM],
    beside: [u8; BESIDE],
}

impl Lent {
    fn new() -> Self {
        Lent {
            out: [0x5A; ROOM],
            beside: [0x5A; BESIDE],
        }
    }

    /// One handling by a program.
    #[inline(always)]
    fn by(
        &mut self,
        handle: impl Fn(&[u8], &[u8], &[u8], &mut [u8], &mut [u8]) -> Answer,
        frame: &[u8],
        settings: &[u8],
    ) -> Answer {
        handle(frame, settings, &CLOCK, &mut self.out, &mut self.beside)
    }

    /// One handling by the product with a store.
    #[inline(always)]
    fn by_store(&mut self, frame: &[u8], store: &[u64]) -> Answer {
        product::handle_prepared(frame, store, &CLOCK, &mut self.out, &mut self.beside)
    }

    /// One handling by the second program with settings read before.
    #[inline(always)]
    fn by_prepared(&mut self, frame: &[u8], prepared: &Prepared) -> Answer {
        reference::handle_prepared(frame, prepared, &CLOCK, &mut self.out, &mut self.beside)
    }

    /// One frame in bursts by the second program.
    #[inline(always)]
    fn read(&mut self, frame: &[u8], settings: &[u8], bursts: usize) -> Answer {
        let (mut reader, _) = Reader::start(settings, &CLOCK, ROOM, BESIDE);
        for burst in frame.chunks(frame.len().div_ceil(bursts)) {
            reader.burst(burst);
        }
        reader.mark(&mut self.out, &mut self.beside)
    }
}

/// Counters of a program and both outputs.
struct Counting<C> {
    counters: C,
    lent: Lent,
}

impl<C: Default> Counting<C> {
    fn new() -> Self {
        Counting {
            counters: C::default(),
            lent: Lent::new(),
        }
    }

    /// One counted handling by a program.
    #[inline(always)]
    fn by(
        &mut self,
        handle: impl Fn(&mut C, &[u8], &[u8], &[u8], &mut [u8], &mut [u8]) -> Answer,
        frame: &[u8],
        settings: &[u8],
    ) -> Answer {
        let Lent { out, beside } = &mut self.lent;
        handle(&mut self.counters, frame, settings, &CLOCK, out, beside)
    }
}

/// What a reader of the product is lent.
struct Reading {
    reader: [u64; TRILL_READER_WORDS],
    gathered: [u8; TRILL_FRAME_MOST],
    lent: Lent,
}

impl Reading {
    fn new() -> Self {
        Reading {
            reader: [0; TRILL_READER_WORDS],
            gathered: [0; TRILL_FRAME_MOST],
            lent: Lent::new(),
        }
    }

    /// One frame in bursts by the product.
    #[inline(always)]
    fn read(&mut self, frame: &[u8], settings: &[u8], bursts: usize) -> Answer {
        let Lent { out, beside } = &mut self.lent;
        product::reader_start(&mut self.reader, settings, &CLOCK, ROOM, BESIDE);
        for burst in frame.chunks(frame.len().div_ceil(bursts)) {
            product::reader_burst(&mut self.reader, &mut self.gathered, burst);
        }
        product::reader_mark(&mut self.reader, &self.gathered, out, beside)
    }
}

impl Call {
    fn handlings(&self) -> u64 {
        match self {
            Call::Handling { .. }
            | Call::Prepared { .. }
            | Call::Counted { .. }
            | Call::Bursts { .. } => 1,
            Call::Run { count, .. } => u64::from(*count),
        }
    }
}

/// The references are thin, so that hiding where they lead costs next to
/// nothing.
fn repeat<I, R, T>(times: u64, input: &I, mut room: R, call: impl Fn(&I, &mut R) -> T) {
    for _ in 0..times {
        black_box(call(black_box(input), black_box(&mut room)));
    }
}

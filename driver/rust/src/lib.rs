#![doc = include_str!("../README.md")]
#![no_std]
#![warn(missing_docs)]

/// Octets of a frame: a longer one is refused, and none longer is written.
pub const TRILL_FRAME_MOST: usize = 2048;
/// Octets that the output buffer must have.
pub const TRILL_OUTPUT_LEAST: usize = 2048;
/// Octets that the second output buffer must have: those of the longest reply.
pub const TRILL_BESIDE_LEAST: usize = 576;
/// Octets of a clock: 3 for seconds, 3 for microseconds.
pub const TRILL_CLOCK: usize = 6;
/// Words of a store of prepared settings.
pub const TRILL_PREPARED_WORDS: usize = 164;
/// Words of a reader.
pub const TRILL_READER_WORDS: usize = 168;
/// Octets that the buffer must have in which a reader gathers.
pub const TRILL_GATHERED_LEAST: usize = 2048;
/// Every answer's number is under it.
pub const TRILL_ANSWER_NUMBERS: usize = 64;
/// Octets of the longest link header that the way out writes.
pub const TRILL_LINK_MOST: usize = 18;
/// Octets of a description: a longer one is refused.
pub const CAMPUS_DESCRIPTION_MOST: usize = 32768;
/// Octets that the trace buffer must have.
pub const CAMPUS_TRACE_LEAST: usize = 640;
/// Octets that the trace buffer must have with a switch of edition 2.
pub const CAMPUS_TRACE_MOST: usize = 32768;
/// Octets of a trace entry.
pub const CAMPUS_ENTRY: usize = 8;
/// Octets of the longest text.
pub const CAMPUS_TEXT_MOST: usize = 73741;

/// Constants, and a table of their names and meanings.
macro_rules! numbers {
    ($(#[$about:meta])* $table:ident: $($name:ident = $number:literal, $meaning:literal;)*) => {
        $(#[doc = $meaning] pub const $name: u32 = $number;)*
        $(#[$about])*
        pub const $table: &[(&str, u32, &str)] = &[$((stringify!($name), $number, $meaning)),*];
    };
}

numbers! {
    /// The answers of one handling: name, number, meaning.
    TRILL_ANSWERS:
    TRILL_REFUSED_SETTINGS = 1, "settings bad, or clock not six octets";
    TRILL_REFUSED_OUTPUT = 2, "output buffer under 2,048 octets";
    TRILL_REFUSED_FRAME = 3, "frame over 2,048 octets";
    TRILL_REFUSED_COUNTERS = 4, "a counter or the total at its greatest value";
    TRILL_DROP_SHORT = 10, "link header or TRILL header cut short";
    TRILL_DROP_ETHERTYPE = 11, "Ethertype not 0x22F3";
    TRILL_DROP_OUTER_DA = 12, "outer DA not own MAC";
    TRILL_DROP_VERSION = 13, "V not 0";
    TRILL_DROP_MULTI = 14, "M is 1";
    TRILL_DROP_INGRESS = 15, "ingress nickname 0 or from 0xFFC0";
    TRILL_DROP_EGRESS = 16, "egress nickname 0 or above 0xFFC0";
    TRILL_DROP_HOP_COUNT = 17, "hop count 0";
    TRILL_DROP_OPTIONS_PAST = 18, "options area runs past the frame";
    TRILL_DROP_CRITICAL = 20, "critical option or flag that affects us";
    TRILL_DROP_NO_NEXT_HOP = 21, "not the egress and no next hop";
    TRILL_DROP_INNER_SHORT = 22, "inner frame under 18 octets";
    TRILL_DROP_INNER_TAG = 23, "inner tag type not 0x8100, or VLAN 0 or 4,095";
    TRILL_DROP_INNER_DA = 24, "egress Any-RBridge, inner DA not All-Egress-RBridges";
    TRILL_DROP_CHANNEL_FAULT = 25, "channel fault, no error reply is made";
    TRILL_DROP_CHANNEL_ERR = 26, "channel protocol not 0x001 and ERR not 0";
    TRILL_DROP_ECHO_BODY = 27, "echo body under 18 or over 530 octets, or SPID neither 3 nor 4";
    TRILL_DROP_ECHO_UNANSWERED = 28, "echo request, no reply is made";
    TRILL_DROP_FORWARDED_LONG = 29, "forwarded frame would have over 2,048 octets";
    TRILL_DROP_OPTION_RESERVED = 30, "option with a reserved Length";
    TRILL_DROP_OPTION_PAST = 31, "option past the options area";
    TRILL_DROP_OPTION_BELOW = 32, "option key below the one before";
    TRILL_DROP_OPTION_EQUAL = 33, "option key equal to the one before";
    TRILL_DROP_CHBH_MISSING = 34, "critical hop-by-hop option, CHbH is 0";
    TRILL_DROP_CITE_MISSING = 35, "critical ingress-to-egress option, CItE is 0";
    TRILL_REFUSED_ENDED = 36, "burst or mark after the end mark";
    TRILL_REFUSED_BESIDE = 37, "second output buffer under 576 octets";
    TRILL_DROP_FLAGS = 38, "critical flag and summary bit at odds, edition 2";
    TRILL_FORWARDED = 50, "forwarded";
    TRILL_DELIVERED = 51, "delivered";
    TRILL_HANDED_UP = 52, "handed up: inner DA All-Egress-RBridges, Ethertype 0x22F4";
    TRILL_ERROR_REPLY = 53, "channel fault: error reply";
    TRILL_ECHO_REPLY = 54, "echo request: echo reply";
    TRILL_ERROR_HEARD = 55, "error heard";
    TRILL_ECHO_HEARD = 56, "echo reply heard";
}

numbers! {
    /// The codes of a campus run: name, number, meaning.
    CAMPUS_CODES:
    CAMPUS_RAN = 0, "run";
    CAMPUS_REFUSED_LONG = 40, "description over 32,768 octets";
    CAMPUS_REFUSED_CUT = 41, "field cut short";
    CAMPUS_REFUSED_TAG = 42, "unknown tag or length";
    CAMPUS_REFUSED_PLACE = 43, "tag out of place, or no tag 5 at the end";
    CAMPUS_REFUSED_VALUE = 44, "value outside the settings rules";
    CAMPUS_REFUSED_NICKNAME = 45, "nickname of an earlier switch";
    CAMPUS_REFUSED_NUMBER = 46, "over 16 switches, or over 64 records at a switch";
    CAMPUS_REFUSED_SERIAL = 47, "serial met before for that destination at that switch";
    CAMPUS_REFUSED_ENTRY = 48, "entry switch unknown";
    CAMPUS_REFUSED_TRACE = 49, "trace buffer under 640 octets, or under 32,768 with edition 2";
}

fn meaning(table: &[(&str, u32, &'static str)], number: u32) -> &'static str {
    let found = table.iter().find(|line| line.1 == number);
    found.map_or("no number of document 01", |line| line.2)
}

/// What one handling answers.
#[repr(C)]
#[derive(Clone, Copy, Debug, PartialEq, Eq)]
pub struct Answer {
    /// One of [`TRILL_ANSWERS`].
    pub number: u16,
    /// Octets written at the start of the output, 0 where nothing is.
    pub written: u16,
    /// Where the delivered part begins in the frame; of 30 to 33 the option's
    /// place in the options area; 0 where there is none.
    pub start: u16,
    /// Octets of the delivered part, 0 where there is none.
    pub length: u16,
    /// Nickname of the neighbour to which the output goes, 0 where nothing is
    /// written.
    pub neighbour: u16,
    /// Octets of the reply beside a forwarded frame, at the start of the second
    /// output; 0 where there is none.
    pub beside: u16,
    /// Nickname of the neighbour to which that reply goes, 0 where there is none.
    pub beside_neighbour: u16,
}

impl Answer {
    /// What the number means, in a few words.
    pub fn meaning(&self) -> &'static str {
        meaning(TRILL_ANSWERS, self.number.into())
    }

    /// The frame to send, of the output that was lent; empty where there is none.
    pub fn written<'a>(&self, out: &'a [u8]) -> &'a [u8] {
        part(out, 0, self.written.into())
    }

    /// The reply to send beside it, of the second output; empty where there is none.
    pub fn beside<'a>(&self, beside: &'a [u8]) -> &'a [u8] {
        part(beside, 0, self.beside.into())
    }

    /// The inner frame, of the frame that was handled; empty where none is delivered.
    pub fn delivered<'a>(&self, frame: &'a [u8]) -> &'a [u8] {
        part(frame, self.start.into(), self.length.into())
    }
}

/// How often each answer was given, and how often any; lent to
/// [`handle_counted`], which counts where it is.
#[repr(C)]
#[derive(Clone, Copy, Debug, PartialEq, Eq, Hash)]
pub struct Counters {
    /// The counter of each number, used or not.
    pub by_answer: [u64; TRILL_ANSWER_NUMBERS],
    /// The counted calls.
    pub total: u64,
}

impl Default for Counters {
    fn default() -> Self {
        Counters {
            by_answer: [0; TRILL_ANSWER_NUMBERS],
            total: 0,
        }
    }
}

/// What the way out is answered.
#[repr(C)]
#[derive(Clone, Copy, Debug, PartialEq, Eq)]
pub struct WayOut {
    /// 0, or 1 for bad settings, 21 for no next hop, 2 for a buffer too short.
    pub number: u32,
    /// Octets of the link header written, 0 where none is.
    pub length: u32,
}

/// What a campus run answers.
#[repr(C)]
#[derive(Clone, Copy, Debug, PartialEq, Eq)]
pub struct Outcome {
    /// One of [`CAMPUS_CODES`].
    pub code: u32,
    /// Trace entries of [`CAMPUS_ENTRY`] octets, one for each handling; 0 for a refusal.
    pub count: u32,
}

impl Outcome {
    /// What the code means, in a few words.
    pub fn meaning(&self) -> &'static str {
        meaning(CAMPUS_CODES, self.code)
    }
}

/// Octets of a text.
#[repr(C)]
#[derive(Clone, Copy, Debug, PartialEq, Eq)]
pub struct Printed {
    /// Those written: all of them, or 0 where there is too little room.
    pub written: u32,
    /// Those of the text.
    pub needed: u32,
}

mod symbols {
    use super::{Answer, Counters, Outcome, Printed, WayOut};

    extern "C" {
        pub fn trill_handle(
            frame: *const u8,
            frame_len: usize,
            settings: *const u8,
            settings_len: usize,
            clock: *const u8,
            clock_len: usize,
            out: *mut u8,
            out_len: usize,
            beside: *mut u8,
            beside_len: usize,
        ) -> Answer;

        pub fn trill_handle_counted(
            counters: *mut Counters,
            frame: *const u8,
            frame_len: usize,
            settings: *const u8,
            settings_len: usize,
            clock: *const u8,
            clock_len: usize,
            out: *mut u8,
            out_len: usize,
            beside: *mut u8,
            beside_len: usize,
        ) -> Answer;

        pub fn trill_prepare(
            settings: *const u8,
            settings_len: usize,
            store: *mut u64,
            words: usize,
        ) -> u32;

        pub fn trill_handle_prepared(
            frame: *const u8,
            frame_len: usize,
            store: *const u64,
            words: usize,
            clock: *const u8,
            clock_len: usize,
            out: *mut u8,
            out_len: usize,
            beside: *mut u8,
            beside_len: usize,
        ) -> Answer;

        pub fn trill_reader_start(
            reader: *mut u64,
            words: usize,
            settings: *const u8,
            settings_len: usize,
            clock: *const u8,
            clock_len: usize,
            out_len: usize,
            beside_len: usize,
        ) -> u32;

        pub fn trill_reader_burst(
            reader: *mut u64,
            words: usize,
            gathered: *mut u8,
            gathered_len: usize,
            octets: *const u8,
            len: usize,
        ) -> u32;

        pub fn trill_reader_mark(
            reader: *mut u64,
            words: usize,
            gathered: *const u8,
            gathered_len: usize,
            out: *mut u8,
            out_len: usize,
            beside: *mut u8,
            beside_len: usize,
        ) -> Answer;

        pub fn trill_way_out(
            settings: *const u8,
            settings_len: usize,
            destination: u16,
            out: *mut u8,
            out_len: usize,
        ) -> WayOut;

        pub fn trill_way_out_prepared(
            store: *const u64,
            words: usize,
            destination: u16,
            out: *mut u8,
            out_len: usize,
        ) -> WayOut;

        pub fn campus_run(
            description: *const u8,
            description_len: usize,
            trace: *mut u8,
            trace_len: usize,
        ) -> Outcome;

        pub fn campus_text(
            description: *const u8,
            description_len: usize,
            text: *mut u8,
            text_len: usize,
        ) -> Printed;
    }
}

/// Handles one received frame at the switch of these settings; `trill_handle`
/// in C.
#[inline]
pub fn handle(
    frame: &[u8],
    settings: &[u8],
    clock: &[u8],
    out: &mut [u8],
    beside: &mut [u8],
) -> Answer {
    // SAFETY: the call takes any lengths. The slices are valid for theirs, and
    // `out` and `beside`, which alone are written, overlap no other.
    unsafe {
        symbols::trill_handle(
            frame.as_ptr(),
            frame.len(),
            settings.as_ptr(),
            settings.len(),
            clock.as_ptr(),
            clock.len(),
            out.as_mut_ptr(),
            out.len(),
            beside.as_mut_ptr(),
            beside.len(),
        )
    }
}

/// The same, counted: 4, which changes nothing, if a counter or the total is at
/// its greatest value; `trill_handle_counted` in C.
#[inline]
pub fn handle_counted(
    counters: &mut Counters,
    frame: &[u8],
    settings: &[u8],
    clock: &[u8],
    out: &mut [u8],
    beside: &mut [u8],
) -> Answer {
    // SAFETY: the call takes any lengths and any counters. The slices are valid
    // for theirs, and what is written, the counters and both outputs, overlaps
    // no other.
    unsafe {
        symbols::trill_handle_counted(
            counters,
            frame.as_ptr(),
            frame.len(),
            settings.as_ptr(),
            settings.len(),
            clock.as_ptr(),
            clock.len(),
            out.as_mut_ptr(),
            out.len(),
            beside.as_mut_ptr(),
            beside.len(),
        )
    }
}

/// Judges settings and writes them into a store of [`TRILL_PREPARED_WORDS`]
/// words: 0, or 1 for bad settings, 2 for too few words, which leave the store
/// as it was; `trill_prepare` in C.
#[inline]
pub fn prepare(settings: &[u8], store: &mut [u64]) -> u32 {
    // SAFETY: the call takes any lengths. Both slices are valid for theirs, and
    // `store`, which alone is written, does not overlap the settings.
    unsafe {
        symbols::trill_prepare(
            settings.as_ptr(),
            settings.len(),
            store.as_mut_ptr(),
            store.len(),
        )
    }
}

/// Handles one received frame at the switch of a store, which may hold any
/// words; `trill_handle_prepared` in C.
#[inline]
pub fn handle_prepared(
    frame: &[u8],
    store: &[u64],
    clock: &[u8],
    out: &mut [u8],
    beside: &mut [u8],
) -> Answer {
    // SAFETY: the call takes any lengths and any words. The slices are valid for
    // theirs, and `out` and `beside`, which alone are written, overlap no other.
    unsafe {
        symbols::trill_handle_prepared(
            frame.as_ptr(),
            frame.len(),
            store.as_ptr(),
            store.len(),
            clock.as_ptr(),
            clock.len(),
            out.as_mut_ptr(),
            out.len(),
            beside.as_mut_ptr(),
            beside.len(),
        )
    }
}

/// Begins a frame in bursts with [`TRILL_READER_WORDS`] words of state: 0, or
/// the early answer 1, 2 or 37; `trill_reader_start` in C. The lengths are those
/// of the outputs that will be lent at the mark.
#[inline]
pub fn reader_start(
    reader: &mut [u64],
    settings: &[u8],
    clock: &[u8],
    out_len: usize,
    beside_len: usize,
) -> u32 {
    // SAFETY: the call takes any lengths and any words. The slices are valid for
    // theirs, and `reader`, which alone is written, overlaps no other.
    unsafe {
        symbols::trill_reader_start(
            reader.as_mut_ptr(),
            reader.len(),
            settings.as_ptr(),
            settings.len(),
            clock.as_ptr(),
            clock.len(),
            out_len,
            beside_len,
        )
    }
}

/// Takes a burst into `gathered`, which has [`TRILL_GATHERED_LEAST`] octets or more
/// and is lent to each call: 0, the early answer, or 36 after the mark;
/// `trill_reader_burst` in C.
#[inline]
pub fn reader_burst(reader: &mut [u64], gathered: &mut [u8], octets: &[u8]) -> u32 {
    // SAFETY: the call takes any lengths and any words. The slices are valid for
    // theirs, and `reader` and `gathered`, which alone are written, overlap no
    // other.
    unsafe {
        symbols::trill_reader_burst(
            reader.as_mut_ptr(),
            reader.len(),
            gathered.as_mut_ptr(),
            gathered.len(),
            octets.as_ptr(),
            octets.len(),
        )
    }
}

/// The end mark: the early answer, 36 after another mark, or what [`handle`]
/// answers to all that was gathered; `trill_reader_mark` in C.
#[inline]
pub fn reader_mark(
    reader: &mut [u64],
    gathered: &[u8],
    out: &mut [u8],
    beside: &mut [u8],
) -> Answer {
    // SAFETY: the call takes any lengths and any words. The slices are valid for
    // theirs, and what is written, the reader and both outputs, overlaps no
    // other.
    unsafe {
        symbols::trill_reader_mark(
            reader.as_mut_ptr(),
            reader.len(),
            gathered.as_ptr(),
            gathered.len(),
            out.as_mut_ptr(),
            out.len(),
            beside.as_mut_ptr(),
            beside.len(),
        )
    }
}

/// Writes the link header towards a destination; `trill_way_out` in C.
#[inline]
pub fn way_out(settings: &[u8], destination: u16, out: &mut [u8]) -> WayOut {
    // SAFETY: the call takes any lengths. Both slices are valid for theirs, and
    // `out`, which alone is written, does not overlap the settings.
    unsafe {
        symbols::trill_way_out(
            settings.as_ptr(),
            settings.len(),
            destination,
            out.as_mut_ptr(),
            out.len(),
        )
    }
}

/// The same by a store, which may hold any words; `trill_way_out_prepared` in C.
#[inline]
pub fn way_out_prepared(store: &[u64], destination: u16, out: &mut [u8]) -> WayOut {
    // SAFETY: the call takes any lengths and any words. Both slices are valid for
    // theirs, and `out`, which alone is written, does not overlap the store.
    unsafe {
        symbols::trill_way_out_prepared(
            store.as_ptr(),
            store.len(),
            destination,
            out.as_mut_ptr(),
            out.len(),
        )
    }
}

/// Runs a description and writes its trace; `campus_run` in C.
#[inline]
pub fn run(description: &[u8], trace: &mut [u8]) -> Outcome {
    // SAFETY: the call takes any lengths. Both slices are valid for theirs, and
    // `trace`, which alone is written, does not overlap the description.
    unsafe {
        symbols::campus_run(
            description.as_ptr(),
            description.len(),
            trace.as_mut_ptr(),
            trace.len(),
        )
    }
}

/// Runs a description and writes the run as text, if there is room for all of
/// it; `campus_text` in C.
#[inline]
pub fn text(description: &[u8], room: &mut [u8]) -> Printed {
    // SAFETY: the call takes any lengths. Both slices are valid for theirs, and
    // `room`, which alone is written, does not overlap the description.
    unsafe {
        symbols::campus_text(
            description.as_ptr(),
            description.len(),
            room.as_mut_ptr(),
            room.len(),
        )
    }
}

/// The part of some octets with this start and length, or an empty one if that
/// does not lie within them.
pub fn part(octets: &[u8], start: usize, length: usize) -> &[u8] {
    let rest = octets.get(start..).unwrap_or_default();
    rest.get(..length).unwrap_or_default()
}

//! The three levels' libraries, linked at once: tests/build makes copies of their archives in which every name begins with its level's.
use crate::consoles::Consoles;
use crate::link::Link;

#[link(name = "one", kind = "static")]
extern "C" {}
#[link(name = "two", kind = "static")]
extern "C" {}
#[link(name = "three", kind = "static")]
extern "C" {}

/// The levels by their number.
pub const LEVELS: [&str; 4] = ["", "level one", "level two", "level three"];

/// An answer of the C interface that is all numbers.
macro_rules! answer {
    ($answer:ident [$count:literal] { $($field:ident),* }) => {
        #[repr(C)]
        pub struct $answer {
            $($field: u64),*
        }

        impl $answer {
            pub fn fields(&self) -> [u64; $count] {
                [$(self.$field),*]
            }
        }
    };
}

answer!(Answer[5] { refusal, frame, octet, frames, octets });
answer!(JoinedAnswer[6] { refusal, frame, octet, recording, frames, octets });
answer!(FrameAnswer[8] { refusal, frame, octet, ftype, quality, indication, request, core_octets });
answer!(ClassAnswer[4] { refusal, frame, octet, class });
answer!(SheetAnswer[5] { refusal, frame, octet, mode, numbers });
answer!(View[12] { refusal, frame, octet, end, ftype, quality, indication, request, core_octets, offset, number, class });
answer!(Counts[9] { refusal, frame, octet, octets, frames, speech, comfort, lost, empty });
answer!(ConsolesFields[5] { refusal, frame, octet, served, console });

#[repr(C)]
pub struct ConsolesAnswer {
    pub fields: ConsolesFields,
    pub consoles: Consoles,
}

#[repr(C)]
pub struct LinkAnswer {
    pub refusal: u64,
    pub frame: u64,
    pub octet: u64,
    pub link: Link,
}

answer!(DownFields[10] { refusal, frame, octet, fqc, rfci, n1, n2, n3, forwarded, request });

#[repr(C)]
pub struct DownAnswer {
    pub fields: DownFields,
    pub link: Link,
}

/// The calls that a level adds, and their entries in each library that has them, by the first part of their names.
macro_rules! calls {
    ($table:ident, $libraries:ident: [$($prefix:literal),*], $calls:tt) => {
        table!($table, $calls);
        pub static $libraries: &[$table] = &[$(entries!($table, $prefix, $calls)),*];
    };
}

macro_rules! table {
    ($table:ident, { $($call:ident($($argument:ty),*) -> $answer:ty;)* }) => {
        pub struct $table {
            $(pub $call: unsafe extern "C" fn($($argument),*) -> $answer),*
        }
    };
}

macro_rules! entries {
    ($table:ident, $prefix:literal, { $($call:ident($($argument:ty),*) -> $answer:ty;)* }) => {{
        extern "C" {
            $(#[link_name = concat!($prefix, stringify!($call))]
            fn $call($(_: $argument),*) -> $answer;)*
        }
        $table { $($call),* }
    }};
}

calls!(OneCalls, ONE_CALLS: ["one_amrwb_", "two_amrwb_", "three_amrwb_"], {
    validate(u64, *const u8, usize) -> Answer;
    convert(u64, u64, u64, *const u8, usize, *mut u8, usize) -> Answer;
    convert_length(u64, u64, u64, *const u8, usize) -> Answer;
    merge(u64, *const u8, usize, *const u8, usize, *mut u8, usize) -> JoinedAnswer;
    read_frame(u64, *const u8, usize, *mut u8, usize) -> FrameAnswer;
    build_if1(u64, u64, u64, u64, *const u8, usize, *mut u8, usize) -> Answer;
    build_if2(u64, u64, *const u8, usize, *mut u8, usize) -> Answer;
});

calls!(TwoCalls, TWO_CALLS: ["two_amrwb_", "three_amrwb_"], {
    build_stored(u64, u64, *const u8, usize, *mut u8, usize) -> Answer;
    class(u64, u64, u64) -> ClassAnswer;
    order_to_core(u64, *const u16, usize, *const u8, usize, *mut u8, usize) -> Answer;
    order_to_row(u64, *const u16, usize, *const u8, usize, *mut u8, usize) -> Answer;
    sheet_read(*const u8, usize, *mut u16, usize) -> SheetAnswer;
    view_open(u64, *const u8, usize) -> View;
    view_next(u64, u64, u64, *const u8, usize, *mut u8, usize) -> View;
    report(*const u8, usize) -> Counts;
});

calls!(ConsoleCalls, CONSOLE_CALLS: ["two_amrwb_consoles_", "three_amrwb_consoles_"], {
    fresh() -> Consoles;
    add(Consoles, u64) -> ConsolesAnswer;
    slot(Consoles) -> ConsolesAnswer;
});

calls!(LinkCalls, LINK_CALLS: ["three_amrwb_link_"], {
    fresh() -> Link;
    assign(Link, *const u64, usize) -> LinkAnswer;
    release(Link) -> LinkAnswer;
    rate(Link, u64) -> LinkAnswer;
    up(Link, u64, u64, *const u8, usize, *const u8, usize, *const u8, usize, *mut u8, usize) -> Answer;
    down(Link, *const u8, usize, *mut u8, usize, *mut u8, usize, *mut u8, usize) -> DownAnswer;
});

/// The calls of level one in every level's library.
pub fn one_calls() -> impl Iterator<Item = (usize, &'static OneCalls)> {
    (1..).zip(ONE_CALLS)
}

/// The calls that level two adds, in its library and in level three's.
pub fn two_calls() -> impl Iterator<Item = (usize, &'static TwoCalls)> {
    (2..).zip(TWO_CALLS)
}

/// The calls of the consoles, in level two's library and in level three's.
pub fn console_calls() -> impl Iterator<Item = (usize, &'static ConsoleCalls)> {
    (2..).zip(CONSOLE_CALLS)
}

pub fn link_calls() -> &'static LinkCalls {
    &LINK_CALLS[0]
}

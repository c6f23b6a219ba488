//! The refusal numbers of document 01, in checking order, and a refusal with its detail.

pub const OUTPUT_BUFFER: u8 = 40;
pub const PROFILE_STORE_OR_COUNT: u8 = 41;
pub const FEWER_THAN_SIX: u8 = 42;
pub const RECEIVED_COUNT: u8 = 1;
pub const ERROR_CONTROL: u8 = 2;
pub const HEADER: u8 = 16;
pub const APID: u8 = 0;
pub const TYPE: u8 = 3;
pub const SUBTYPE: u8 = 4;
pub const DATA: u8 = 5;
pub const MEMORY_ID: u8 = 17;
pub const RIGHT: u8 = 18;
pub const OUTSIDE: u8 = 19;

/// The writer's own numbers.
pub const WRITE_FIELD: u8 = 50;
pub const WRITE_DATA: u8 = 51;
pub const WRITE_BUFFER: u8 = 52;

/// The reader of frames' own numbers, in checking order.
pub const FRAME_LENGTH: u8 = 60;
pub const FRAME_HEADER: u8 = 61;
pub const FRAME_TYPE: u8 = 62;
pub const FRAME_SOURCE_DATA: u8 = 63;

/// The number of the first check that fails and its detail, 0 for none.
#[derive(Clone, Copy, Debug, PartialEq, Eq)]
pub struct Refusal {
    pub number: u8,
    pub detail: u16,
}

impl Refusal {
    pub fn new(number: u8, detail: u16) -> Refusal {
        Refusal { number, detail }
    }

    pub fn without_detail(number: u8) -> Refusal {
        Refusal { number, detail: 0 }
    }
}

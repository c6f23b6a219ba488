//! What can be wrong with a unit file, and what is said then.

use std::fmt::{self, Display, Formatter};

/// What is wrong with a bad line, in the order of the table of messages.
#[derive(Clone, Copy, Debug, PartialEq, Eq)]
pub enum Fault {
    LineTooLong,
    NoItem,
    PidAgain,
    PidForm,
    PidTooLarge,
    ServicesAgain,
    ServicesForm,
    ServiceAgain,
    StoreAgain,
    StoreForm,
    StoreTooLarge,
    PutBeforeStore,
    PutForm,
    PutNoDigit,
    PutOddDigits,
    PutPastStore,
    NinthArea,
    AreaForm,
    MemoryIdTooLarge,
    OddPlace,
    OtherSize,
    RightAgain,
    NoNumber,
    NumberTooLarge,
    NoPid,
    NoStore,
}

/// The first bad line of a unit file.
#[derive(Clone, Copy, Debug, PartialEq, Eq)]
pub struct BadLine {
    pub number: u64,
    pub fault: Fault,
}

impl Fault {
    /// Every row of the table of messages.
    pub const ALL: [Fault; 26] = [
        Fault::LineTooLong,
        Fault::NoItem,
        Fault::PidAgain,
        Fault::PidForm,
        Fault::PidTooLarge,
        Fault::ServicesAgain,
        Fault::ServicesForm,
        Fault::ServiceAgain,
        Fault::StoreAgain,
        Fault::StoreForm,
        Fault::StoreTooLarge,
        Fault::PutBeforeStore,
        Fault::PutForm,
        Fault::PutNoDigit,
        Fault::PutOddDigits,
        Fault::PutPastStore,
        Fault::NinthArea,
        Fault::AreaForm,
        Fault::MemoryIdTooLarge,
        Fault::OddPlace,
        Fault::OtherSize,
        Fault::RightAgain,
        Fault::NoNumber,
        Fault::NumberTooLarge,
        Fault::NoPid,
        Fault::NoStore,
    ];
}

impl Display for Fault {
    fn fmt(&self, text: &mut Formatter) -> fmt::Result {
        text.write_str(match self {
            Fault::LineTooLong => "a line has at most 4096 characters",
            Fault::NoItem => "a line begins with pid, services, store, put or area",
            Fault::PidAgain => "pid stands once, and an earlier line has it",
            Fault::PidForm => "a process ID is \"pid N\"",
            Fault::PidTooLarge => "a process ID is at most 255",
            Fault::ServicesAgain => "services stands once, and an earlier line has it",
            Fault::ServicesForm => "services are \"services WORD ..\": one or more of load, dump, check and connection",
            Fault::ServiceAgain => "a service stands once on its line",
            Fault::StoreAgain => "store stands once, and an earlier line has it",
            Fault::StoreForm => "a store is \"store N\"",
            Fault::StoreTooLarge => "a store has at most 65536 octets",
            Fault::PutBeforeStore => "put stands behind store, and no earlier line has it",
            Fault::PutForm => "octets are put by \"put AT HEX ..\"",
            Fault::PutNoDigit => "HEX is hexadecimal digits",
            Fault::PutOddDigits => "HEX is two digits for each octet",
            Fault::PutPastStore => "octets are put inside the store",
            Fault::NinthArea => "a unit has at most 8 areas",
            Fault::AreaForm => "an area is \"area ID start N words N at N [size N] [load] [dump] [check]\"",
            Fault::MemoryIdTooLarge => "a memory ID is at most 255",
            Fault::OddPlace => "an area begins at an even octet of the store",
            Fault::OtherSize => "a word has 2 octets",
            Fault::RightAgain => "a right stands once on its line",
            Fault::NoNumber => "a number is decimal digits without a leading zero, or 0x and hexadecimal digits",
            Fault::NumberTooLarge => "a number is at most 4294967295",
            Fault::NoPid => "a unit has \"pid N\", and no line has it",
            Fault::NoStore => "a unit has \"store N\", and no line has it",
        })
    }
}

impl Display for BadLine {
    fn fmt(&self, text: &mut Formatter) -> fmt::Result {
        write!(text, "unit {}: {}", self.number, self.fault)
    }
}

//! The independent second implementation of the reference terminal of document 01.
//! Its answers are set beside those of the first implementation, octet for octet.

#![forbid(unsafe_code)]

pub mod blocks;
pub mod cases;
pub mod clauses;
pub mod control_rows;
pub mod crc;
pub mod ends;
pub mod explain;
pub mod frame_causes;
pub mod frame_rows;
pub mod frame_words;
pub mod frames;
pub mod hex;
pub mod hexline;
pub mod iso;
pub mod judge;
pub mod line_reader;
pub mod lines;
pub mod map;
pub mod pack;
pub mod packet_causes;
pub mod program;
pub mod random;
pub mod refusal;
pub mod sample;
pub mod sample_bad_unit;
pub mod sample_control;
pub mod sample_frame;
pub mod sample_line;
pub mod sample_map;
pub mod sample_parts;
pub mod sample_record;
pub mod sample_refused;
pub mod sample_unit;
pub mod sample_wider;
pub mod sample_write;
pub mod soundness;
pub mod tc;
pub mod telemetry;
pub mod terminal;
pub mod tm;
pub mod unit;
pub mod unit_fault;
pub mod write_rows;

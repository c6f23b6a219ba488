//! `checkgen SEED CHECKS` writes packets for `pack` under the unit of tests/full.unit, which a benchmark times: loads
//! that fill its store, then so many checks of all of it.

use std::io::{self, BufWriter, Write};
use std::process::ExitCode;

use second::blocks::MemoryRequest;
use second::hex;
use second::map::LONGEST_STORE;
use second::program;
use second::random::Random;
use second::tc::{self, Method, Order};

/// The unit's PID, and the memory ID of its area: all of the store, from address 0 on.
const PID: u8 = 5;
const MEMORY_ID: u8 = 1;
const MEMORY: u8 = 6;
const WORD_OCTETS: usize = 2;
/// A load of more words in one block is no packet.
const LOAD_WORDS: usize = 114;

/// Where the packets go, and the count of the next.
struct Packets<W: Write> {
    output: W,
    count: u16,
}

fn main() -> ExitCode {
    let Some((seed, checks)) = program::seed_and_count() else {
        return program::fail("usage: checkgen SEED CHECKS");
    };
    let output = BufWriter::with_capacity(1 << 16, io::stdout().lock());
    program::finish(Packets { output, count: 0 }.write_all(seed, checks))
}

impl<W: Write> Packets<W> {
    fn write_all(&mut self, seed: u64, checks: u64) -> io::Result<()> {
        let store = Random::new(seed).octets(LONGEST_STORE);
        for (number, words) in store.chunks(LOAD_WORDS * WORD_OCTETS).enumerate() {
            let block = one_block(number * LOAD_WORDS, words.len() / WORD_OCTETS);
            self.write(MemoryRequest::Load, &[&block, words].concat())?;
        }
        let block = one_block(0, LONGEST_STORE / WORD_OCTETS);
        for _ in 0..checks {
            self.write(MemoryRequest::Check, &block)?;
        }
        self.output.flush()
    }

    /// One packet without acks; the count 16,383 is followed by 0.
    fn write(&mut self, request: MemoryRequest, data: &[u8]) -> io::Result<()> {
        let (count, method, subtype) = (self.count, Method::Crc, request.subtype());
        let order = Order { pid: PID, count, ack: 0, method, service: MEMORY, subtype, data };
        let mut packet = [0; tc::LONGEST];
        let length = tc::write(&order, &mut packet)
            .map_err(|number| io::Error::other(format!("the writer refuses a packet with {number}")))?;
        self.count = (self.count + 1) % (tc::LARGEST_COUNT + 1);
        let mut line = Vec::new();
        hex::write(&packet[..length], &mut line);
        line.push(b'\n');
        self.output.write_all(&line)
    }
}

/// Data of service 6 that names one block; the words of a load come behind it.
fn one_block(start: usize, words: usize) -> Vec<u8> {
    let mut data = vec![MEMORY_ID, 1];
    data.extend_from_slice(&(start as u32).to_be_bytes());
    data.extend_from_slice(&(words as u16).to_be_bytes());
    data
}

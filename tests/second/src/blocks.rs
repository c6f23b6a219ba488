//! Check 5, whether application data is well formed, with its detail; and the blocks
//! of a load, dump or check.

const MOST_BLOCKS: u8 = 8;
const LONGEST_DUMP: u16 = 240;

/// The three requests of service 6.
#[derive(Clone, Copy, Debug, PartialEq, Eq)]
pub enum MemoryRequest {
    Load,
    Dump,
    Check,
}

/// One block as requested; a load has its words, the others have none.
#[derive(Clone, Copy, Debug, PartialEq, Eq)]
pub struct Block<'a> {
    pub start: u32,
    pub length: u16,
    pub words: &'a [u8],
}

/// The application data of service 6, well formed.
#[derive(Clone, Debug, PartialEq, Eq)]
pub struct MemoryData<'a> {
    pub memory_id: u8,
    pub blocks: Vec<Block<'a>>,
}

impl MemoryRequest {
    pub const ALL: [MemoryRequest; 3] = [MemoryRequest::Load, MemoryRequest::Dump, MemoryRequest::Check];

    pub fn subtype(self) -> u8 {
        match self {
            MemoryRequest::Load => 2,
            MemoryRequest::Dump => 5,
            MemoryRequest::Check => 9,
        }
    }
}

/// Reads the data of service 6. Where it is not well formed, the error is the detail of 5.
pub fn read_memory_data(request: MemoryRequest, data: &[u8]) -> Result<MemoryData<'_>, u16> {
    let Some((&[memory_id, n], mut rest)) = data.split_first_chunk::<2>() else {
        return Err(0);
    };
    if !(1..=MOST_BLOCKS).contains(&n) {
        return Err(0);
    }
    let mut blocks = Vec::with_capacity(usize::from(n));
    for number in 1..=u16::from(n) {
        let (block, after) = first_block(request, rest).ok_or(number)?;
        blocks.push(block);
        rest = after;
    }
    if !rest.is_empty() {
        return Err(0);
    }
    Ok(MemoryData { memory_id, blocks })
}

/// Service 17 has no application data; any is the error, with the detail of 5.
pub fn read_connection_data(data: &[u8]) -> Result<(), u16> {
    if data.is_empty() {
        Ok(())
    } else {
        Err(0)
    }
}

/// The block at the front and the octets after it, unless it is cut off or has a bad length.
fn first_block(request: MemoryRequest, octets: &[u8]) -> Option<(Block<'_>, &[u8])> {
    let (&[a, b, c, d, upper, lower], rest) = octets.split_first_chunk::<6>()?;
    let start = u32::from_be_bytes([a, b, c, d]);
    let length = u16::from_be_bytes([upper, lower]);
    if length < 1 || (request == MemoryRequest::Dump && length > LONGEST_DUMP) {
        return None;
    }
    let word_octets = match request {
        MemoryRequest::Load => usize::from(length) * 2,
        MemoryRequest::Dump | MemoryRequest::Check => 0,
    };
    let (words, rest) = rest.split_at_checked(word_octets)?;
    Some((Block { start, length, words }, rest))
}

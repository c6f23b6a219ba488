//! Octets in parts and their lengths for the generators.

use crate::random::Random;

/// The octets that a harness holds at a time.
pub const IMAGE_PART: usize = 4_096;

/// The whole cut at so many places, and now and then at its ends and twice at one place: then there are parts of no
/// octets, first, last and between others.
pub fn divided<'a>(random: &mut Random, whole: &'a [u8], cuts: usize) -> Vec<&'a [u8]> {
    let mut places: Vec<usize> = (0..cuts).map(|_| random.between(0, whole.len() as u64) as usize).collect();
    if !places.is_empty() && random.once_in(3) {
        places.push(random.pick(&places));
    }
    if random.once_in(4) {
        places.push(0);
    }
    if random.once_in(4) {
        places.push(whole.len());
    }
    places.push(whole.len());
    places.sort_unstable();
    let mut begun = 0;
    let part_to = |end| {
        let part = &whole[begun..end];
        begun = end;
        part
    };
    places.into_iter().map(part_to).collect()
}

/// A length near the place, which is a multiple of 8, on either side of it, with that remainder modulo 8.
pub fn length_about(random: &mut Random, place: usize, remainder: usize) -> usize {
    place - 24 + 8 * random.below(6) as usize + remainder
}

/// An image of two to four parts as a harness holds it, the last one short.
pub fn image(random: &mut Random) -> Vec<u8> {
    let full = random.between(1, 3) as usize;
    let short = random.between(1, IMAGE_PART as u64 - 1) as usize;
    random.octets(full * IMAGE_PART + short)
}

//! `framegen SEED LINES` writes input for `frames`: frames that read cleanly, frames with each cause of refusal and each
//! pair of causes in turn, frames changed without an aim, and bad lines. The last line has no newline.

use std::io::{self, BufWriter, Write};
use std::process::ExitCode;

use second::frame_causes::Aims;
use second::hexline::MOST_DIGITS;
use second::program;
use second::random::Random;
use second::sample_frame::{self, CLEAN_TURNS};
use second::sample_line::digits;

/// How many lines of a kind there are already: each kind goes through what it has in turn.
struct Generator {
    random: Random,
    aims: Aims,
    clean: usize,
    swept: usize,
    text: usize,
}

fn main() -> ExitCode {
    let Some((seed, lines)) = program::seed_and_count() else {
        return program::fail("usage: framegen SEED LINES");
    };
    program::finish(write_lines(seed, lines))
}

fn write_lines(seed: u64, lines: u64) -> io::Result<()> {
    let mut generator = Generator { random: Random::new(seed), aims: Aims::new(), clean: 0, swept: 0, text: 0 };
    let mut output = BufWriter::with_capacity(1 << 16, io::stdout().lock());
    for number in 1..=lines {
        if number == lines {
            output.write_all(&generator.clean())?;
            break;
        }
        output.write_all(&generator.line(number))?;
        output.write_all(b"\n")?;
    }
    output.flush()
}

impl Generator {
    fn line(&mut self, number: u64) -> Vec<u8> {
        match number % 12 {
            0 => self.clean(),
            2 => {
                let frame = sample_frame::written(&mut self.random);
                digits(&mut self.random, &frame)
            }
            6 => {
                let frame = sample_frame::changed(&mut self.random);
                digits(&mut self.random, &frame)
            }
            4 | 10 => self.swept(),
            8 => self.text(),
            _ => self.aimed(),
        }
    }

    fn clean(&mut self) -> Vec<u8> {
        self.clean += 1;
        let frame = sample_frame::clean(&mut self.random, self.clean);
        digits(&mut self.random, &frame)
    }

    fn aimed(&mut self) -> Vec<u8> {
        let frame = sample_frame::with_causes(&mut self.random, &self.aims.next_aim());
        digits(&mut self.random, &frame)
    }

    fn swept(&mut self) -> Vec<u8> {
        self.swept += 1;
        let frame = sample_frame::swept(&mut self.random, self.swept);
        digits(&mut self.random, &frame)
    }

    /// The digits of a frame that reads cleanly, to be spoiled as text.
    fn any_clean(&mut self) -> Vec<u8> {
        let turn = self.random.below(CLEAN_TURNS as u64) as usize;
        let frame = sample_frame::clean(&mut self.random, turn);
        digits(&mut self.random, &frame)
    }

    /// Lines that are something as text, in turn; most are bad.
    fn text(&mut self) -> Vec<u8> {
        const CHARACTERS: &[u8] = b"\r \0\t\x80\xFF\x7FGg/:@`xX\xB1";
        self.text += 1;
        let turn = self.text / 4;
        match self.text % 4 {
            0 => self.with_character(CHARACTERS[turn % CHARACTERS.len()], turn),
            1 => {
                let mut line = self.any_clean();
                line.pop();
                line
            }
            2 => self.of_length(turn),
            _ if turn.is_multiple_of(4) => [b"0x", self.any_clean().as_slice()].concat(),
            _ => Vec::new(),
        }
    }

    /// The character at the start, at the end, in place of a digit or between two.
    fn with_character(&mut self, character: u8, turn: usize) -> Vec<u8> {
        let mut line = self.any_clean();
        let place = self.random.below(line.len() as u64) as usize;
        match turn % 5 {
            0 | 1 => line.push(character),
            2 => line.insert(0, character),
            3 => line[place] = character,
            _ => line.splice(place..place, [character; 2]).for_each(drop),
        }
        line
    }

    /// A line about as long as one may be: the digits of a whole frame, or digits without a meaning.
    fn of_length(&mut self, turn: usize) -> Vec<u8> {
        const LENGTHS: [usize; 8] = [4_097, 4_098, 4_096, 4_095, 5_000, 4_098, 4_096, 70_000];
        let length = LENGTHS[turn % LENGTHS.len()];
        let frame = sample_frame::long(&mut self.random, length.div_ceil(2));
        let mut line = digits(&mut self.random, &frame);
        line.truncate(length);
        // A line of just so many characters, one of which is no digit.
        if length == MOST_DIGITS && turn.is_multiple_of(3) {
            line[length - 1] = b'\r';
        }
        line
    }
}

//! Playing a file of calls: records in, lines out.

use std::io::{self, ErrorKind, Read, Write};

use crate::answer::Answer;
use crate::machine::Machine;
use crate::words::Slot;

/// How many bytes are read, and how many are gathered before they are written.
const BUFFER: usize = 64 * 1024;

/// How many bytes one record takes.
const RECORD: usize = 4;

/// A length no printed line exceeds: a place has up to 20 digits, an answer 3.
const LONGEST_LINE: usize = 32;

/// Plays the records of `input` on a fresh block; prints an answer to each,
/// and then the slots that are held.
pub fn play(mut input: impl Read, output: impl Write) -> io::Result<()> {
    let mut machine = Machine::fresh();
    let mut lines = Lines::new(output);
    let mut place = 0;
    let mut buffer = [0; BUFFER];
    let mut filled = 0;
    loop {
        let read = read_some(&mut input, &mut buffer[filled..])?;
        if read == 0 {
            break;
        }
        filled += read;
        let (records, rest) = buffer[..filled].as_chunks::<RECORD>();
        for &record in records {
            place += 1;
            lines.answer(place, machine.answer(record))?;
        }
        let cut = rest.len();
        buffer.copy_within(filled - cut..filled, 0);
        filled = cut;
    }
    if filled > 0 {
        lines.answer(place + 1, Answer::CutRecord)?;
    }
    for slot in Slot::all() {
        lines.slot(slot, machine.count(slot))?;
    }
    lines.finish()
}

/// Reads at least one byte unless the input has ended.
fn read_some(input: &mut impl Read, buffer: &mut [u8]) -> io::Result<usize> {
    loop {
        match input.read(buffer) {
            Err(error) if error.kind() == ErrorKind::Interrupted => {}
            result => return result,
        }
    }
}

/// Gathers lines and writes them on in whole lines.
struct Lines<W> {
    output: W,
    gathered: Vec<u8>,
}

impl<W: Write> Lines<W> {
    /// A gatherer with no lines yet.
    fn new(output: W) -> Lines<W> {
        let gathered = Vec::with_capacity(BUFFER);
        Lines { output, gathered }
    }

    /// Prints the answer to the record at a place.
    fn answer(&mut self, place: u64, answer: Answer) -> io::Result<()> {
        let mut line = Line::end();
        line.decimal(u64::from(answer.number()));
        line.byte(b' ');
        line.decimal(place);
        self.add(&line)
    }

    /// Prints a slot and its count, if it is held.
    fn slot(&mut self, slot: Slot, count: u16) -> io::Result<()> {
        if count == 0 {
            return Ok(());
        }
        let mut line = Line::end();
        line.decimal(u64::from(count));
        line.byte(b' ');
        line.decimal(u64::from(slot.number()));
        b"slot ".iter().rev().for_each(|&byte| line.byte(byte));
        self.add(&line)
    }

    /// Adds a line, and writes on what is gathered if it might not fit.
    fn add(&mut self, line: &Line) -> io::Result<()> {
        if self.gathered.len() + LONGEST_LINE > BUFFER {
            self.output.write_all(&self.gathered)?;
            self.gathered.clear();
        }
        self.gathered.extend_from_slice(line.bytes());
        Ok(())
    }

    /// Writes on all that is still gathered.
    fn finish(mut self) -> io::Result<()> {
        self.output.write_all(&self.gathered)?;
        self.output.flush()
    }
}

/// A line that is put together from its end, as the digits of a number come.
struct Line {
    room: [u8; LONGEST_LINE],
    first: usize,
}

impl Line {
    /// A line of which there is only the newline yet.
    fn end() -> Line {
        let mut line = Line {
            room: [0; LONGEST_LINE],
            first: LONGEST_LINE,
        };
        line.byte(b'\n');
        line
    }

    /// Puts a byte before the line.
    fn byte(&mut self, byte: u8) {
        self.first -= 1;
        self.room[self.first] = byte;
    }

    /// Puts a number in decimal before the line.
    fn decimal(&mut self, number: u64) {
        let mut rest = number;
        loop {
            self.byte(b'0' + (rest % 10) as u8);
            rest /= 10;
            if rest == 0 {
                break;
            }
        }
    }

    /// The line as far as it is put together.
    fn bytes(&self) -> &[u8] {
        &self.room[self.first..]
    }
}

#[cfg(test)]
mod tests {
    use super::*;

    /// An input that gives one byte at a time.
    struct Dribble<'a>(&'a [u8]);

    impl Read for Dribble<'_> {
        fn read(&mut self, buffer: &mut [u8]) -> io::Result<usize> {
            let one = buffer.len().min(1);
            self.0.read(&mut buffer[..one])
        }
    }

    /// What playing the input prints.
    fn printed(input: impl Read) -> String {
        let mut output = Vec::new();
        play(input, &mut output).unwrap();
        String::from_utf8(output).unwrap()
    }

    #[test]
    fn empty_input_prints_nothing() {
        assert_eq!(printed(io::empty()), "");
    }

    #[test]
    fn a_cut_record_is_answered_13_whatever_its_call() {
        for bytes in [&[1][..], &[0, 0], &[200, 9, 9]] {
            assert_eq!(printed(bytes), "1 13\n");
        }
        assert_eq!(printed(&[1, 0, 0, 0, 6][..]), "1 0\n2 13\n");
    }

    #[test]
    fn unknown_calls_are_answered_12_and_passed_over() {
        let calls = [[0, 0, 0, 0], [12, 8, 16, 64], [255; 4], [1, 7, 255, 255]];
        assert_eq!(
            printed(calls.concat().as_slice()),
            "1 12\n2 12\n3 12\n4 0\n"
        );
    }

    #[test]
    fn short_reads_change_nothing() {
        let records: Vec<u8> = (0..4003_u32).map(|i| (i * 7 % 13) as u8).collect();
        assert_eq!(printed(Dribble(&records)), printed(records.as_slice()));
    }

    #[test]
    fn long_files_keep_every_line() {
        let input = io::repeat(0).take(4 * 100_000);
        let expected: String = (1..=100_000).map(|place| format!("{place} 12\n")).collect();
        assert_eq!(printed(input), expected);
    }

    #[test]
    fn decimals_are_those_of_the_library() {
        for number in [0, 9, 10, 99, 100, 263, 4_294_967_296, u64::MAX] {
            let mut line = Line::end();
            line.decimal(number);
            assert_eq!(line.bytes(), format!("{number}\n").as_bytes());
        }
    }

    #[test]
    fn the_longest_line_has_room() {
        let mut lines = Lines::new(Vec::new());
        let slot = Slot::checked(63).unwrap();
        lines.answer(u64::MAX, Answer::Holds(slot)).unwrap();
        lines.slot(slot, u16::MAX).unwrap();
        assert_eq!(lines.gathered, b"18446744073709551615 263\nslot 63 65535\n");
    }

    #[test]
    fn a_closed_output_is_told_and_not_played_on() {
        /// An output that nobody reads.
        struct Closed;

        impl Write for Closed {
            fn write(&mut self, _: &[u8]) -> io::Result<usize> {
                Err(ErrorKind::BrokenPipe.into())
            }

            fn flush(&mut self) -> io::Result<()> {
                Ok(())
            }
        }

        let error = play(io::repeat(0), Closed).unwrap_err();
        assert_eq!(error.kind(), ErrorKind::BrokenPipe);
    }
}

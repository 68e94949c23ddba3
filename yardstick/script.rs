//! A script: lines out of pieces of the input, answers into the output.

use crate::text::Text;
use std::io::{self, BufRead, BufReader, Read, Write};

/// The most bytes that are read at once.
const PIECE: usize = 65_536;

/// The most bytes of a line, less its line feed.
const MAX_LINE: usize = 1024;

/// What answers lines.
pub trait Answers {
    /// Answers the line of this number, which is its date too. No line is one that is too long.
    fn answer(&mut self, line: Option<&[u8]>, number: u32, text: &mut Text);

    /// Reports on the conditions, and tells whether all hold.
    fn report(&mut self, text: &mut Text) -> bool;
}

/// Answers all lines and reports on the tables. Tells whether all conditions hold. What was answered is written before
/// each read.
pub fn run(answers: impl Answers, input: impl Read, output: impl Write) -> io::Result<bool> {
    let mut input = BufReader::with_capacity(PIECE, input);
    let mut script = Script { answers, line_number: 0, held: Vec::new(), text: Text::new(), output };
    loop {
        script.write_out()?;
        let piece = input.fill_buf()?;
        if piece.is_empty() {
            return script.close();
        }
        let length = piece.len();
        script.answer_piece(piece)?;
        input.consume(length);
    }
}

struct Script<A, O> {
    answers: A,
    line_number: u32,
    /// The beginning of a line that has not ended, one byte more than a line may have at most.
    held: Vec<u8>,
    /// The answers that aren't written yet.
    text: Text,
    output: O,
}

impl<A: Answers, O: Write> Script<A, O> {
    fn answer_piece(&mut self, piece: &[u8]) -> io::Result<()> {
        let mut rest = piece;
        while !rest.is_empty() {
            let behind = rest;
            let length = rest.skip_until(b'\n')?;
            match behind[..length].strip_suffix(b"\n") {
                Some(line) if self.held.is_empty() => self.answer_line(line)?,
                Some(end) => {
                    self.hold(end);
                    self.answer_held()?;
                }
                None => self.hold(behind),
            }
        }
        Ok(())
    }

    fn hold(&mut self, part: &[u8]) {
        let room = MAX_LINE + 1 - self.held.len();
        self.held.extend_from_slice(&part[..part.len().min(room)]);
    }

    fn answer_held(&mut self) -> io::Result<()> {
        let mut line = std::mem::take(&mut self.held);
        self.answer_line(&line)?;
        line.clear();
        self.held = line;
        Ok(())
    }

    fn answer_line(&mut self, line: &[u8]) -> io::Result<()> {
        if self.text.is_full() {
            self.write_out()?;
        }
        self.line_number += 1;
        let line = (line.len() <= MAX_LINE).then_some(line);
        self.answers.answer(line, self.line_number, &mut self.text);
        Ok(())
    }

    fn write_out(&mut self) -> io::Result<()> {
        self.output.write_all(self.text.as_bytes())?;
        self.text.clear();
        self.output.flush()
    }

    /// Answers a last line that no line feed ends, and reports.
    fn close(mut self) -> io::Result<bool> {
        if !self.held.is_empty() {
            self.answer_held()?;
        }
        self.write_out()?;
        let is_good = self.answers.report(&mut self.text);
        self.write_out()?;
        Ok(is_good)
    }
}

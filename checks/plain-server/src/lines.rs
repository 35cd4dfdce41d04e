//! Cuts an input into lines, and answers each.

use crate::tree::{self, Tree};
use std::io::{self, Read, Write};
use std::ops::Range;

/// The most bytes of a line.
const LONGEST: usize = 1_048_576;

/// How many bytes are read at once while lines are short, and how many of replies are written at once.
const PIECE: usize = 65_536;

/// A line without its newline.
pub enum Line<'a> {
    Whole(&'a [u8]),
    TooLong,
}

impl<'a> Line<'a> {
    /// Its value; nothing where it is no JSON or too long.
    pub fn value(self) -> Option<Tree<'a>> {
        match self {
            Line::Whole(bytes) => tree::read(bytes),
            Line::TooLong => None,
        }
    }
}

/// Answers each line of an input, and writes the replies before it waits for more.
pub fn answer_lines(
    input: impl Read,
    mut output: impl Write,
    mut answer: impl FnMut(Line, &mut Vec<u8>),
) -> io::Result<()> {
    let mut lines = Lines::new(input);
    let mut replies = Vec::new();
    loop {
        while let Some(line) = lines.next() {
            answer(line, &mut replies);
            if replies.len() >= PIECE {
                write(&mut output, &mut replies)?;
            }
        }
        write(&mut output, &mut replies)?;
        if lines.fill()? == 0 {
            break;
        }
    }
    if let Some(line) = lines.rest() {
        answer(line, &mut replies);
    }
    write(&mut output, &mut replies)
}

/// Writes replies, and empties them.
fn write(output: &mut impl Write, replies: &mut Vec<u8>) -> io::Result<()> {
    output.write_all(replies)?;
    output.flush()?;
    replies.clear();
    Ok(())
}

/// The lines of an input.
struct Lines<R> {
    input: R,
    buffer: Vec<u8>,
    /// What was read and not handed out, and up to where it has no newline.
    unread: Range<usize>,
    searched: usize,
    /// Whether the line that is being read is too long; what of it was read is gone.
    is_too_long: bool,
}

impl<R: Read> Lines<R> {
    fn new(input: R) -> Lines<R> {
        Lines {
            input,
            buffer: vec![0; PIECE],
            unread: 0..0,
            searched: 0,
            is_too_long: false,
        }
    }

    /// The next line whose newline was read.
    fn next(&mut self) -> Option<Line<'_>> {
        let line = self.cut()?;
        Some(self.line(line))
    }

    /// What stands after the last newline, where it is not empty.
    fn rest(&mut self) -> Option<Line<'_>> {
        let rest = std::mem::replace(&mut self.unread, 0..0);
        let is_there = self.is_too_long || !rest.is_empty();
        is_there.then(|| self.line(rest))
    }

    /// What is handed out for bytes of the buffer.
    fn line(&mut self, bytes: Range<usize>) -> Line<'_> {
        if std::mem::take(&mut self.is_too_long) || bytes.len() > LONGEST {
            Line::TooLong
        } else {
            Line::Whole(&self.buffer[bytes])
        }
    }

    /// The bytes of the next line, where its newline was read.
    fn cut(&mut self) -> Option<Range<usize>> {
        let searched = &self.buffer[self.searched..self.unread.end];
        let Some(length) = memchr::memchr(b'\n', searched) else {
            self.searched = self.unread.end;
            self.drop_what_is_too_long();
            return None;
        };
        let end = self.searched + length;
        let line = self.unread.start..end;
        self.unread.start = end + 1;
        self.searched = end + 1;
        Some(line)
    }

    /// Drops the begin of a line that is too long.
    fn drop_what_is_too_long(&mut self) {
        if self.unread.len() > LONGEST {
            self.is_too_long = true;
            self.unread = 0..0;
            self.searched = 0;
        }
    }

    /// Reads more; how many bytes.
    fn fill(&mut self) -> io::Result<usize> {
        if self.unread.start > 0 {
            self.buffer.copy_within(self.unread.clone(), 0);
            self.searched -= self.unread.start;
            self.unread = 0..self.unread.len();
        }
        if self.unread.end == self.buffer.len() {
            self.buffer.resize(self.buffer.len() * 2, 0);
        }
        let read = self.input.read(&mut self.buffer[self.unread.end..])?;
        self.unread.end += read;
        Ok(read)
    }
}

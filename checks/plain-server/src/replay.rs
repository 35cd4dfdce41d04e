//! Answers the lines of standard input, in order, from an empty book.

use crate::answer::{Answerer, BAD_REQUEST};
use crate::book::Book;
use crate::desk::{is_desk_line, publish, write_refusal, Desk};
use crate::lines::{answer_lines, Line};
use crate::moment::Moment;
use crate::tree::Tree;
use std::fs::File;
use std::io;
use std::os::fd::AsFd;

/// Answers desk lines and requests until the input ends.
pub fn replay(name: &str, moment: Moment) -> io::Result<()> {
    let (mut desk, mut book) = (Desk::default(), Book::default());
    // The handles of the standard library have buffers of their own.
    let input = File::from(io::stdin().as_fd().try_clone_to_owned()?);
    let output = File::from(io::stdout().as_fd().try_clone_to_owned()?);
    answer_lines(input, output, |line, out| {
        reply(line, &mut desk, &mut book, name, moment, out);
    })
}

/// Writes the reply to a line.
fn reply(
    line: Line,
    desk: &mut Desk,
    book: &mut Book,
    name: &str,
    moment: Moment,
    out: &mut Vec<u8>,
) {
    let value = line.value();
    match value.as_ref().and_then(Tree::only_member) {
        None => out.extend_from_slice(BAD_REQUEST),
        Some((verb, value)) if is_desk_line(verb) => {
            if let Err(refusal) = desk.answer(verb, value, out, |changes| publish(book, changes)) {
                write_refusal(out, refusal);
            }
        }
        Some((verb, value)) => Answerer { book, name, moment }.answer(verb, value, out),
    }
}

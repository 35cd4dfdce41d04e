//! Answers requests over TCP, while a desk edits the mappings.

use crate::answer::{Answerer, BAD_REQUEST};
use crate::book::Book;
use crate::desk::{is_desk_line, publish, write_refusal, Desk};
use crate::lines::{answer_lines, Line};
use crate::moment::Moment;
use crate::refusal::Refusal;
use crate::tree::Tree;
use std::fs::File;
use std::io;
use std::net::{TcpListener, TcpStream};
use std::sync::{PoisonError, RwLock};
use std::thread;

/// Where a server listens, and what it begins with.
pub struct Addresses<'a> {
    pub queries: &'a str,
    pub desk: Option<&'a str>,
    pub map: Option<&'a str>,
    pub workers: usize,
}

/// Serves without end.
pub fn serve(name: &str, addresses: &Addresses) -> io::Result<()> {
    let book = RwLock::new(Book::default());
    let mut desk = Desk::default();
    if let Some(path) = addresses.map {
        load(path, &mut desk, &book)?;
    }
    let queries = TcpListener::bind(addresses.queries)?;
    let edits = addresses.desk.map(TcpListener::bind).transpose()?;
    println!("ready");
    thread::scope(|scope| {
        for _ in 0..addresses.workers {
            scope.spawn(|| each_connection(&queries, |stream| answer_queries(stream, name, &book)));
        }
        if let Some(edits) = edits {
            each_connection(&edits, |stream| answer_desk(stream, &mut desk, &book));
        }
    });
    Ok(())
}

/// Serves one connection after another. One that fails ends alone.
fn each_connection(
    listener: &TcpListener,
    mut serve_one: impl FnMut(&TcpStream) -> io::Result<()>,
) {
    loop {
        let served = listener.accept().and_then(|(stream, _)| {
            stream.set_nodelay(true)?;
            serve_one(&stream)
        });
        if let Err(error) = served {
            eprintln!("plain-server: {error}");
        }
    }
}

/// Answers the lines of a query connection.
fn answer_queries(stream: &TcpStream, name: &str, book: &RwLock<Book>) -> io::Result<()> {
    answer_lines(stream, stream, |line, out| {
        let value = line.value();
        let Some((verb, value)) = value.as_ref().and_then(Tree::only_member) else {
            out.extend_from_slice(BAD_REQUEST);
            return;
        };
        let book = &book.read().unwrap_or_else(PoisonError::into_inner);
        Answerer {
            book,
            name,
            moment: Moment::now(),
        }
        .answer(verb, value, out);
    })
}

/// Answers the lines of a desk's connection, and then drops what was not committed.
fn answer_desk(stream: &TcpStream, desk: &mut Desk, book: &RwLock<Book>) -> io::Result<()> {
    let answered = answer_lines(stream, stream, |line, out| {
        if let Err(refusal) = desk_line(line, desk, book, out) {
            write_refusal(out, refusal);
        }
    });
    desk.drop_pending();
    answered
}

/// Answers a line of the desk.
fn desk_line(
    line: Line,
    desk: &mut Desk,
    book: &RwLock<Book>,
    out: &mut Vec<u8>,
) -> Result<(), Refusal> {
    let value = line.value();
    match value.as_ref().and_then(Tree::only_member) {
        Some((verb, value)) if is_desk_line(verb) => desk.answer(verb, value, out, |changes| {
            publish(
                &mut book.write().unwrap_or_else(PoisonError::into_inner),
                changes,
            )
        }),
        _ => Err(Refusal::BadLine),
    }
}

/// Reads a map, each line of which the desk must take.
fn load(path: &str, desk: &mut Desk, book: &RwLock<Book>) -> io::Result<()> {
    let (mut number, mut fault) = (0, None);
    answer_lines(File::open(path)?, io::sink(), |line, out| {
        number += 1;
        if let (None, Err(refusal)) = (&fault, desk_line(line, desk, book, out)) {
            fault = Some(format!(
                "{path}: line {number}: {} {refusal:?}",
                refusal.code()
            ));
        }
    })?;
    desk.drop_pending();
    fault.map_or(Ok(()), |fault| Err(io::Error::other(fault)))
}

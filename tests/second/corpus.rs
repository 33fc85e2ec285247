//! Writes the stored corpus and fresh sets.

use crate::book::{Book, Data};
use crate::inputs::Pair;
use crate::random::Random;
use crate::{aes, bodies_fresh, bodies_run, bodies_stored, pcmac, week};
use crate::{inputs_fresh, inputs_run, inputs_spare, inputs_stored};
use crate::{questions_encode, questions_frames, questions_keys, questions_lines, questions_messages};
use crate::{questions_order, questions_spare, questions_spoilt, questions_streams, questions_writer};
use std::path::Path;
use std::{fs, io};

/// The stored corpus is made from this seed.
const STORED: u64 = 0x5043_2D4D_4143_2D41;

/// The inputs of send are made from another, so that those of check stay as they are.
const SEND: u64 = 0x5345_4E44_2D52_554E;

pub fn hold_to_documents() {
    aes::hold_to_published_vectors();
    pcmac::hold_to_outline_figures();
}

/// The first three questions are the examples of the page on `probe`.
fn examples(book: &mut Book) {
    let k = Data::Written(crate::probe::pattern(16, 0x02, 0x11));
    let l = Data::Written(crate::probe::pattern(16, 0x03, 0x1D));
    let keys = book.key_call(2, 128, &k, &l, 0);
    book.tag(&keys, &Data::Pattern(112, 0x03, 0x07), (16, 0x77), Some(0));
    book.decode(b"0123", (1, 0xA5), 3);
}

fn book(seed: u64, dense: bool) -> Book {
    let mut book = Book::new(seed, dense);
    examples(&mut book);
    questions_keys::ask(&mut book);
    questions_messages::ask(&mut book);
    questions_streams::ask(&mut book);
    questions_spoilt::ask(&mut book);
    questions_frames::ask(&mut book);
    questions_lines::ask(&mut book);
    // Each behind all before it, so that those questions and the random numbers that they draw stay as they are.
    questions_encode::ask(&mut book);
    questions_writer::ask(&mut book);
    questions_order::ask(&mut book);
    questions_spare::ask(&mut book);
    book
}

fn write(folder: &Path, name: &str, bytes: &[u8]) -> io::Result<()> {
    let file = folder.join(name);
    fs::create_dir_all(file.parent().unwrap_or(folder))?;
    fs::write(file, bytes)
}

fn write_pair(folder: &Path, input: &str, output: &str, pair: &Pair) -> io::Result<()> {
    write(folder, input, &pair.input)?;
    write(folder, output, pair.output.as_bytes())
}

/// The stored files, in the folders of the repository.
pub fn stored(folder: &Path) -> io::Result<()> {
    hold_to_documents();
    let book = book(STORED, false);
    write(folder, "crates/probe/stdin", &book.questions)?;
    write(folder, "crates/probe/stdout", &book.answers)?;
    let mut random = Random(STORED);
    let run = inputs_run::run(&mut random);
    write_pair(folder, "crates/checker/stdin", "crates/checker/stdout", &run)?;
    write_inputs(&folder.join("tests/check"), &inputs_stored::all(&mut random))?;
    let mut random = Random(SEND);
    let run = bodies_run::run(&mut random);
    write_pair(folder, "crates/sender/stdin", "crates/sender/stdout", &run)?;
    write_inputs(&folder.join("tests/send"), &bodies_stored::all(&mut random))?;
    write_pair(folder, "examples/week.txt", "examples/week.out", &week::week())?;
    let week60 = week::week_of_60_bits();
    write_pair(folder, "examples/week60.txt", "examples/week60.out", &week60)?;
    for (name, bytes) in week::week_sent() {
        write(folder, &format!("examples/week.{name}"), &bytes)?;
    }
    write(folder, "bench/line.txt", &week::bench_line().input)?;
    write(folder, "bench/body.txt", &week::bench_body().input)
}

/// Each input and its output under its name.
fn write_inputs(folder: &Path, pairs: &[Pair]) -> io::Result<()> {
    for pair in pairs {
        let name = &pair.name;
        write_pair(folder, &format!("{name}.in"), &format!("{name}.out"), pair)?;
    }
    Ok(())
}

/// Each input and its output under the program's name and a number.
fn write_numbered(folder: &Path, program: &str, pairs: &[Pair]) -> io::Result<()> {
    for (i, pair) in pairs.iter().enumerate() {
        let name = format!("{program}-{i:02}");
        write_pair(folder, &format!("{name}.in"), &format!("{name}.out"), pair)?;
    }
    Ok(())
}

/// A fresh set: one book of questions for probe, and numbered inputs for check and for send.
pub fn fresh(seed: u64, folder: &Path) -> io::Result<()> {
    hold_to_documents();
    let mut book = book(seed, true);
    // The last line may lack its line feed: after an odd seed it does.
    book.questions.truncate(book.questions.len() - (seed % 2) as usize);
    write(folder, "probe.in", &book.questions)?;
    write(folder, "probe.out", &book.answers)?;
    write_numbered(folder, "check", &inputs_fresh::all(&mut Random(!seed)))?;
    write_numbered(folder, "send", &bodies_fresh::all(&mut Random(!seed ^ SEND)))
}

/// An input of check for each tag length that has spare bits, numbered by the tag length.
pub fn spare(folder: &Path) -> io::Result<()> {
    hold_to_documents();
    write_inputs(folder, &inputs_spare::every_length())
}

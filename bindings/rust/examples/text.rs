//! Prints for a capture on standard input what mdp_handler prints of it with --in-order:
//! text [--window N] [--join] < capture
//!
//! Skipped lines are not told. The exit statuses are the program's: 0; 1 where memory, a read or a write failed; 2 where
//! the words or the capture are refused.

use mdp_handler::{Error, Feed, Handler, Options, Start};
use std::io::{self, Read, Write};
use std::process::ExitCode;

/// Why a run ends: its exit status, and what is told.
type Fault = (u8, String);

/// A line of the capture that isn't skipped.
enum Line<'a> {
    Listing(&'a [u8]),
    Datagram(Feed, Vec<u8>),
    Close,
}

/// The lines with their numbers, without their ends.
fn lines_of(capture: &[u8]) -> impl Iterator<Item = (usize, &[u8])> {
    let cut = |line: &'_ [u8]| match line {
        [front @ .., b'\r', b'\n'] => front.len(),
        [front @ .., b'\n'] => front.len(),
        all => all.len(),
    };
    (1..).zip(capture.split_inclusive(|byte| *byte == b'\n').map(move |line| &line[..cut(line)]))
}

/// Whether this is an `I` line, whether its instrument can be listed or not. The library is asked.
fn is_listing(line: &[u8]) -> bool {
    let trial = Handler::open_text(line, &Options { window: 1, ..Options::default() });
    !matches!(trial, Err(Error::LineForm { .. }))
}

fn bytes_of(digits: &[u8]) -> Option<Vec<u8>> {
    if digits.is_empty() || digits.len() % 2 == 1 || digits.len() > 2 * 2048 {
        return None;
    }
    let digit = |it: u8| Some((it as char).to_digit(16)? as u8);
    digits.chunks(2).map(|pair| Some(16 * digit(pair[0])? + digit(pair[1])?)).collect()
}

fn read_line(line: &[u8]) -> Option<Line<'_>> {
    let (feed, digits) = match line {
        [b'I', ..] => return is_listing(line).then_some(Line::Listing(line)),
        b"X" => return Some(Line::Close),
        [b'A', b' ', digits @ ..] => (Feed::A, digits),
        [b'B', b' ', digits @ ..] => (Feed::B, digits),
        [b'S', b' ', digits @ ..] => (Feed::S, digits),
        _ => return None,
    };
    Some(Line::Datagram(feed, bytes_of(digits)?))
}

fn options_of(words: &[String]) -> Option<Options> {
    let mut options = Options::default();
    let mut words = words.iter();
    while let Some(word) = words.next() {
        match word.as_str() {
            "--join" => options.start = Start::Join,
            "--window" => options.window = words.next()?.parse().ok()?,
            _ => return None,
        }
    }
    Some(options)
}

/// Opens a handler with the `I` lines, all of which stand before the rest.
fn open(capture: &[u8], options: &Options) -> Result<Handler, Fault> {
    let mut listing = Vec::new();
    let mut has_begun = false;
    for line in lines_of(capture).filter_map(|(_, line)| read_line(line)) {
        match line {
            Line::Listing(_) if has_begun => return Err((2, "35 InstrumentLate".to_string())),
            Line::Listing(line) => listing.extend([line, b"\n"].concat()),
            _ => has_begun = true,
        }
    }
    Handler::open_text(&listing, options)
        .map_err(|error| (if error == Error::Memory { 1 } else { 2 }, error.to_string()))
}

fn run(words: &[String], output: &mut impl Write) -> Result<(), Fault> {
    let options = options_of(words).ok_or((2, "usage: text [--window N] [--join]".to_string()))?;
    let mut capture = Vec::new();
    io::stdin().lock().read_to_end(&mut capture).map_err(|_| (1, "43 Input".to_string()))?;
    let mut handler = open(&capture, &options)?;
    let output_failed = |_| (1, "42 Output".to_string());
    let mut refused = Vec::new();
    for (number, line) in lines_of(&capture) {
        let answer = match read_line(line) {
            Some(Line::Datagram(feed, bytes)) => match handler.datagram(feed, &bytes) {
                Err(error @ Error::Refused(_)) => {
                    refused.push((feed as u8, number, error));
                    Ok(())
                }
                other => other.map(|_| ()),
            },
            Some(Line::Close) => handler.close(),
            _ => Ok(()),
        };
        output.write_all(handler.lines()).map_err(output_failed)?;
        handler.clear_lines();
        answer.map_err(|error| (1, error.to_string()))?;
    }
    refused.sort_by_key(|(feed, number, _)| (*feed, *number));
    for (feed, number, error) in refused {
        writeln!(output, "X {} {number} {error}", ["A", "B", "S"][feed as usize]).map_err(output_failed)?;
    }
    let state = handler.state();
    writeln!(output, "Z {} {}", state.next, if state.is_lost { "lost" } else { "live" }).map_err(output_failed)?;
    output.flush().map_err(output_failed)
}

fn main() -> ExitCode {
    let words: Vec<String> = std::env::args().skip(1).collect();
    match run(&words, &mut io::stdout().lock()) {
        Ok(()) => ExitCode::SUCCESS,
        Err((status, says)) => {
            eprintln!("{says}");
            ExitCode::from(status)
        }
    }
}

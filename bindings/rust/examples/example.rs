//! Reads a capture on standard input, and prints after each datagram the best levels of each book that changed:
//! its slot, the bid and the offer. Lines of other forms are passed over.

use mdp_handler::{Feed, Handler, Level, Options};
use std::error::Error;
use std::io::{self, BufRead};

fn words_of(level: Option<Level>) -> String {
    level.map_or("-".to_string(), |it| format!("{}x{}", it.price, it.size))
}

fn print_changed(handler: &mut Handler) -> Result<(), Box<dyn Error>> {
    for slot in handler.changed() {
        let best = handler.best(slot)?;
        let end = if best.is_faulty { " faulty" } else { "" };
        println!("{slot} {} {}{end}", words_of(best.bid), words_of(best.offer));
    }
    handler.clear_lines();
    Ok(())
}

fn bytes_of(digits: &str) -> Option<Vec<u8>> {
    (0..digits.len()).step_by(2).map(|n| u8::from_str_radix(digits.get(n..n + 2)?, 16).ok()).collect()
}

fn main() -> Result<(), Box<dyn Error>> {
    let options = Options { lines: false, ..Options::default() };
    let mut listing = String::new();
    let mut opened: Option<Handler> = None;
    for line in io::stdin().lock().lines() {
        let line = line?;
        let (feed, digits) = match line.split_once(' ') {
            Some(("A", digits)) => (Feed::A, digits),
            Some(("B", digits)) => (Feed::B, digits),
            Some(("S", digits)) => (Feed::S, digits),
            Some(("I", _)) => {
                listing += &(line + "\n");
                continue;
            }
            _ => continue,
        };
        let handler = match &mut opened {
            Some(handler) => handler,
            none => none.insert(Handler::open_text(listing.as_bytes(), &options)?),
        };
        let Some(bytes) = bytes_of(digits) else { continue };
        if let Err(error) = handler.datagram(feed, &bytes) {
            eprintln!("{error}");
        }
        print_changed(handler)?;
    }
    Ok(())
}

//! The command line.

use crate::receiver::Start;

pub const HELP: &str = "\
Usage: plain_handler [options] < capture > text
       plain_handler --channel FILE [options] < pcap > text

Handles one market data channel, on one thread, in the order in which records stand.

      --window N      packets kept ahead, 1 to 65536 [default: 1024]
      --join          starts in the middle of a channel: no packet passes before a first jump
      --channel FILE  standard input is a pcap file; FILE lists the instruments and the feeds' addresses
      --live          prints as records come, before each read
      --books         keeps the books alone, without any text, and prints one line of counts
      --in-order      does nothing: the records are always taken in order
      --workers N     does nothing: there is one thread
  -h, --help          prints this
";

/// What the program is asked for.
#[derive(Clone, PartialEq, Eq, Debug)]
pub struct Arguments {
    pub start: Start,
    pub channel: Option<String>,
    pub is_live: bool,
    pub books_alone: bool,
    pub help: bool,
}

impl Arguments {
    /// Reads the words behind the program's name.
    pub fn of(words: impl IntoIterator<Item = String>) -> Result<Arguments, String> {
        let mut arguments = Arguments {
            start: Start { window: 1024, joins: false },
            channel: None,
            is_live: false,
            books_alone: false,
            help: false,
        };
        let mut seen: Vec<String> = Vec::new();
        let mut words = words.into_iter();
        while let Some(word) = words.next() {
            let (name, value) = match word.split_once('=') {
                Some((name, value)) if name.starts_with("--") => (name.to_owned(), Some(value.to_owned())),
                _ => (word, None),
            };
            if seen.contains(&name) {
                return Err(format!("error: the argument '{name}' cannot be used multiple times"));
            }
            arguments.take(&name, value, &mut words)?;
            if arguments.help {
                break;
            }
            seen.push(name);
        }
        Ok(arguments)
    }

    fn take(
        &mut self,
        name: &str,
        value: Option<String>,
        words: &mut impl Iterator<Item = String>,
    ) -> Result<(), String> {
        let is_flag = matches!(name, "--join" | "--live" | "--books" | "--in-order" | "--help" | "-h");
        if is_flag && value.is_some() {
            return Err(format!("error: '{name}' takes no value"));
        }
        let mut value = || value.clone().or_else(|| words.next()).ok_or(format!("error: '{name}' wants a value"));
        match name {
            "--join" => self.start.joins = true,
            "--live" => self.is_live = true,
            "--books" => self.books_alone = true,
            "--in-order" => {}
            "--help" | "-h" => self.help = true,
            "--window" => self.start.window = number(name, &value()?, 65_536)?,
            "--workers" => _ = number(name, &value()?, 16)?,
            "--channel" => self.channel = Some(value()?),
            _ => return Err(format!("error: unexpected argument '{name}' found")),
        }
        Ok(())
    }
}

/// Reads a number from 1 to `most`.
fn number(name: &str, text: &str, most: u32) -> Result<u32, String> {
    let invalid = format!("error: invalid value '{text}' for '{name} <N>'");
    match text.parse::<u32>() {
        Ok(number) if (1..=most).contains(&number) => Ok(number),
        Ok(number) => Err(format!("{invalid}: {number} is not in 1..={most}")),
        Err(why) => Err(format!("{invalid}: {why}")),
    }
}

#[cfg(test)]
mod tests {
    use super::*;

    fn arguments(line: &str) -> Result<Arguments, String> {
        Arguments::of(line.split_whitespace().map(String::from))
    }

    #[test]
    fn numbers_have_ranges() {
        for (line, is_good) in [
            ("--window 1", true),
            ("--window=65536 --join", true),
            ("--window 0", false),
            ("--window 65537", false),
            ("--workers 16 --in-order", true),
            ("--workers 17", false),
            ("--window", false),
            ("--window 5 --window 5", false),
            ("--join=1", false),
            ("--other", false),
        ] {
            assert_eq!(arguments(line).is_ok(), is_good, "{line}");
        }
        assert_eq!(arguments("--window=7").map(|arguments| arguments.start.window), Ok(7));
    }
}

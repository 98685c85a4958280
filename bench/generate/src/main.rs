//! `generate`: writes the capture or the pcap file of a made-up channel to standard output.

mod datagram;
mod feeds;
mod market;
mod packets;
mod pcap;
mod random;
mod shape;
mod snapshots;
mod text;

use feeds::Feeds;
use market::Market;
use packets::Packets;
use pcap::PcapWriter;
use shape::{PRESETS, Shape};
use std::fs::File;
use std::io::{self, BufWriter, Write};
use std::process::ExitCode;

const HELP: &str = "\
Usage: generate PRESET [options] > file

Presets: small, day, wide, lossy, deep, endless (goes on for as long as it is read);
awkward ones: one_leg, silent, snapshots (for a handler run with --window 512),
spread_bases (for --window 65536)

      --form FORM     text (a capture) or pcap [default: text]
      --channel FILE  with pcap: writes the instruments and the feeds' addresses to FILE
      --seed N        the same seed gives the same bytes [default: 1]
      --packets N     packets of the complete feed, in place of the preset's
      --datagrams N   ends after so many datagrams
      --spoilt N      of 10,000 datagrams so many are spoilt on one feed [default: 0]
  -h, --help          prints this
";

/// In which form datagrams are written.
#[derive(Clone, PartialEq, Eq, Debug)]
enum Form {
    Text,
    Pcap,
}

struct Arguments {
    shape: Shape,
    form: Form,
    channel: Option<String>,
    seed: u64,
    /// How many datagrams are written at most.
    datagrams: usize,
}

impl Arguments {
    /// Reads the words behind the program's name; none where help is asked for.
    fn of(mut words: impl Iterator<Item = String>) -> Result<Option<Arguments>, String> {
        let preset = words.next().ok_or("no preset")?;
        if preset == "--help" || preset == "-h" {
            return Ok(None);
        }
        let no_preset = || format!("no preset {preset}; there are {}", PRESETS.join(", "));
        let shape = Shape::of_preset(&preset).ok_or_else(no_preset)?;
        let mut arguments = Arguments { shape, form: Form::Text, channel: None, seed: 1, datagrams: usize::MAX };
        while let Some(word) = words.next() {
            if word == "--help" || word == "-h" {
                return Ok(None);
            }
            let value = words.next().ok_or(format!("{word} wants a value"))?;
            arguments.take(&word, value)?;
        }
        if (arguments.form == Form::Pcap) != arguments.channel.is_some() {
            return Err("--form pcap and --channel FILE go together".to_owned());
        }
        Ok(Some(arguments))
    }

    fn take(&mut self, word: &str, value: String) -> Result<(), String> {
        let no_number = |_| format!("{word} {value}: no such number");
        match (word, value.as_str()) {
            ("--form", "text") => self.form = Form::Text,
            ("--form", "pcap") => self.form = Form::Pcap,
            ("--form", _) => return Err(format!("no form {value}; there are text and pcap")),
            ("--channel", _) => self.channel = Some(value),
            ("--seed", _) => self.seed = value.parse().map_err(no_number)?,
            ("--packets", _) => self.shape.packets = Some(value.parse().map_err(no_number)?),
            ("--datagrams", _) => self.datagrams = value.parse().map_err(no_number)?,
            ("--spoilt", _) => self.shape.spoilt = value.parse().map_err(no_number)?,
            _ => return Err(format!("no option {word}")),
        }
        Ok(())
    }
}

/// Writes all that was asked for.
fn generate(arguments: Arguments, mut out: impl Write) -> io::Result<()> {
    let Arguments { shape, form, channel, seed, datagrams } = arguments;
    let market = Market::new(&shape, seed);
    if let Some(file) = channel {
        let mut file = BufWriter::new(File::create(file)?);
        pcap::write_channel(&market, &mut file)?;
        file.flush()?;
    }
    if form == Form::Pcap {
        let mut writer = PcapWriter::new(out, seed)?;
        for arrival in Feeds::new(Packets::new(market), shape, seed).take(datagrams) {
            writer.write_arrival(&arrival)?;
        }
        return writer.flush();
    }
    text::write_instruments(&market, &mut out)?;
    let mut line = Vec::new();
    for arrival in Feeds::new(Packets::new(market), shape, seed).take(datagrams) {
        text::write_arrival(&arrival, &mut line, &mut out)?;
    }
    out.flush()
}

fn main() -> ExitCode {
    let outcome = match Arguments::of(std::env::args().skip(1)) {
        Ok(Some(arguments)) => generate(arguments, BufWriter::with_capacity(1 << 18, io::stdout().lock())),
        Ok(None) => io::stdout().write_all(HELP.as_bytes()),
        Err(why) => {
            eprintln!("{why}\n\n{HELP}");
            return ExitCode::from(2);
        }
    };
    match outcome {
        Ok(()) => ExitCode::SUCCESS,
        // Whoever read has had enough.
        Err(why) if why.kind() == io::ErrorKind::BrokenPipe => ExitCode::SUCCESS,
        Err(why) => {
            eprintln!("{why}");
            ExitCode::FAILURE
        }
    }
}

#[cfg(test)]
mod tests {
    use super::*;

    /// Gives what is written for such words, in a form.
    fn written(words: &str, form: Form) -> Vec<u8> {
        let arguments = Arguments::of(words.split_whitespace().map(String::from)).unwrap().unwrap();
        let mut out = Vec::new();
        generate(Arguments { form, ..arguments }, &mut out).unwrap();
        out
    }

    #[test]
    fn a_seed_gives_the_same_bytes() {
        for preset in PRESETS {
            for form in [Form::Text, Form::Pcap] {
                let of_seed = |seed| written(&format!("{preset} --packets 1100 --seed {seed}"), form.clone());
                let one = of_seed(3);
                assert!(one == of_seed(3), "{preset}");
                assert!(one != of_seed(4), "{preset}");
                let spoilt = written(&format!("{preset} --packets 1100 --seed 3 --spoilt 500"), form.clone());
                assert!(one != spoilt && spoilt.len() < one.len(), "{preset}");
            }
        }
    }

    #[test]
    fn a_preset_is_cut_after_so_many_datagrams() {
        for preset in PRESETS {
            let text = String::from_utf8(written(&format!("{preset} --datagrams 900"), Form::Text)).unwrap();
            let (instruments, datagrams): (Vec<&str>, Vec<&str>) = text.lines().partition(|line| line.starts_with('I'));
            assert!((1..=512).contains(&instruments.len()), "{preset}");
            assert_eq!(datagrams.len(), 900, "{preset}");
            assert!(datagrams.iter().all(|line| line.len() <= 2 + 2 * 2_048), "{preset}");
        }
    }

    #[test]
    fn instruments_say_a_depth_that_is_not_ten() {
        let outrights = |preset: &str, depth: &str| {
            let text = String::from_utf8(written(&format!("{preset} --datagrams 0"), Form::Text)).unwrap();
            text.lines().filter(|line| line.ends_with(depth)).count()
        };
        assert_eq!((outrights("wide", " O"), outrights("wide", " O 3")), (400, 0));
        assert_eq!((outrights("silent", " O"), outrights("silent", " O 3")), (0, 400));
    }
}

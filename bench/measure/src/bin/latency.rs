//! `latency`: sends records into a program one by one, and tells how long each record's text took to come.

use measure::at_share;
use plain_handler::channel::read_channel;
use plain_handler::live::{MakesPrinter, run_capture};
use plain_handler::notes::Notes;
use plain_handler::pcap::run_pcap;
use plain_handler::receiver::Start;
use std::cell::RefCell;
use std::io::{self, Read, Write};
use std::process::{Command, ExitCode, Stdio};
use std::rc::Rc;
use std::sync::Arc;
use std::sync::atomic::{AtomicU64, Ordering};
use std::time::{Duration, Instant};

const HELP: &str = "\
Usage: latency [options] FILE -- PROGRAM [word ..]

Sends the lines of a capture, or the frames of a pcap file, into the program's standard input one by one, and tells
the median, 99 % and the most of the microseconds from before a record was sent until all of its text was read. What
a record's text is, is reckoned beforehand; records without text are sent and not counted.

      --pace N        microseconds from one record to the next; 0 sends the next once the text came [default: 100]
      --count N       how many records are sent [default: 10000]
      --channel FILE  FILE is a pcap file of this channel; PROGRAM gets its own words
      --window N      the window of the program's words [default: 1024]
";

struct Arguments {
    pace: u64,
    count: usize,
    channel: Option<String>,
    window: u32,
    file: String,
    command: Vec<String>,
}

impl Arguments {
    fn of(mut words: impl Iterator<Item = String>) -> Option<Arguments> {
        let mut arguments = Arguments {
            pace: 100,
            count: 10_000,
            channel: None,
            window: 1024,
            file: String::new(),
            command: Vec::new(),
        };
        while let Some(word) = words.next() {
            match word.as_str() {
                "--" => break,
                "--pace" => arguments.pace = words.next()?.parse().ok()?,
                "--count" => arguments.count = words.next()?.parse().ok()?,
                "--window" => arguments.window = words.next()?.parse().ok()?,
                "--channel" => arguments.channel = Some(words.next()?),
                _ => arguments.file = word,
            }
        }
        arguments.command = words.collect();
        (!arguments.file.is_empty() && !arguments.command.is_empty()).then_some(arguments)
    }
}

/// Cuts a capture into what goes first, its lines up to the last instrument, and its records, a line each.
fn lines_of(text: &[u8]) -> (Vec<u8>, Vec<Vec<u8>>) {
    let lines: Vec<&[u8]> = text.split_inclusive(|&byte| byte == b'\n').collect();
    let first = lines.iter().rposition(|line| line.starts_with(b"I ")).map_or(0, |place| place + 1);
    (lines[..first].concat(), lines[first..].iter().map(|line| line.to_vec()).collect())
}

/// Cuts a little-endian pcap file into its header and its records.
fn frames_of(file: &[u8]) -> (Vec<u8>, Vec<Vec<u8>>) {
    let (header, mut rest) = file.split_at(file.len().min(24));
    let mut records = Vec::new();
    while let Some(length) = rest.get(8..12) {
        let length = 16 + u32::from_le_bytes([length[0], length[1], length[2], length[3]]) as usize;
        let (record, after) = rest.split_at(length.min(rest.len()));
        records.push(record.to_vec());
        rest = after;
    }
    (header.to_vec(), records)
}

/// A text that was printed so far, and how long it was whenever the next record was asked for.
#[derive(Clone, Default)]
struct Printed(Rc<RefCell<(u64, Vec<u64>)>>);

impl Write for Printed {
    fn write(&mut self, bytes: &[u8]) -> io::Result<usize> {
        self.0.borrow_mut().0 += bytes.len() as u64;
        Ok(bytes.len())
    }

    fn flush(&mut self) -> io::Result<()> {
        Ok(())
    }
}

/// Gives one record a read, and notes how long the text then is.
struct OneByOne<'a> {
    records: std::iter::Chain<std::iter::Once<&'a [u8]>, std::vec::IntoIter<&'a [u8]>>,
    printed: Printed,
}

impl Read for OneByOne<'_> {
    fn read(&mut self, buffer: &mut [u8]) -> io::Result<usize> {
        let mut printed = self.printed.0.borrow_mut();
        let so_far = printed.0;
        printed.1.push(so_far);
        let record = self.records.next().unwrap_or(&[]);
        buffer[..record.len()].copy_from_slice(record);
        Ok(record.len())
    }
}

/// Reckons how long the text is after each record, and how long all of it is.
fn lengths_of(arguments: &Arguments, head: &[u8], records: &[Vec<u8>]) -> Result<(Vec<u64>, u64), String> {
    let printed = Printed::default();
    let pieces: Vec<&[u8]> = records.iter().map(Vec::as_slice).collect();
    let reader = OneByOne { records: std::iter::once(head).chain(pieces), printed: printed.clone() };
    let start = Start { window: arguments.window, joins: false };
    let makes = MakesPrinter(printed.clone());
    match &arguments.channel {
        Some(file) => {
            let text = std::fs::read(file).map_err(|why| format!("{file}: {why}"))?;
            let (listing, addresses) = read_channel(&text).map_err(|fault| fault.told())?;
            let (_, receiver) = run_pcap(reader, listing.instruments(), &addresses, start, makes, Notes::Nowhere);
            receiver.end();
        }
        None => {
            let (_, receiver) = run_capture(reader, start, makes, Notes::Nowhere);
            receiver.ok_or("no instrument in the capture")?.end();
        }
    }
    let (whole, lengths) = printed.0.take();
    // The first call asked for the head, the second for the first record.
    let lengths = lengths.get(2..2 + records.len()).ok_or("the run ended before the last record")?;
    Ok((lengths.to_vec(), whole))
}

/// When the text had which length.
type Comings = Vec<(Instant, u64)>;

/// Reads a text to its end, and notes when which length of it had come.
fn watch(mut output: impl Read, length: &AtomicU64) -> io::Result<Comings> {
    let mut comings = Vec::new();
    let mut buffer = vec![0; 1 << 16];
    loop {
        let count = output.read(&mut buffer)? as u64;
        if count == 0 {
            return Ok(comings);
        }
        let so_far = length.load(Ordering::Relaxed) + count;
        comings.push((Instant::now(), so_far));
        length.store(so_far, Ordering::Release);
    }
}

/// Waits until a time, at the end of it without sleeping.
fn wait_until(time: Instant) {
    const SPIN: Duration = Duration::from_micros(200);
    loop {
        let left = time.saturating_duration_since(Instant::now());
        if left.is_zero() {
            return;
        }
        if left > SPIN {
            std::thread::sleep(left - SPIN);
        } else {
            std::hint::spin_loop();
        }
    }
}

/// Waits until the text is so long, a second at most, and tells whether it got so long.
fn wait_for(length: &AtomicU64, wanted: u64) -> bool {
    let end = Instant::now() + Duration::from_secs(1);
    while length.load(Ordering::Acquire) < wanted {
        if Instant::now() > end {
            return false;
        }
        std::thread::yield_now();
    }
    true
}

/// Sends all records, and gives when each was sent, and when which length of text came.
fn send(
    arguments: &Arguments,
    head: &[u8],
    records: &[Vec<u8>],
    lengths: &[u64],
) -> io::Result<(Vec<Instant>, Comings)> {
    let mut command = Command::new(&arguments.command[0]);
    command.args(&arguments.command[1..]).stdin(Stdio::piped()).stdout(Stdio::piped());
    let mut process = command.spawn()?;
    let no_pipe = || io::Error::other("no pipe");
    let mut input = process.stdin.take().ok_or_else(no_pipe)?;
    let output = process.stdout.take().ok_or_else(no_pipe)?;
    let length = Arc::new(AtomicU64::new(0));
    let seen = Arc::clone(&length);
    let watcher = std::thread::spawn(move || watch(output, &seen));
    input.write_all(head)?;
    let mut sent = Vec::with_capacity(records.len());
    let start = Instant::now();
    let mut waits = arguments.pace == 0;
    for (place, (record, wanted)) in records.iter().zip(lengths).enumerate() {
        wait_until(start + Duration::from_micros(arguments.pace * place as u64));
        sent.push(Instant::now());
        input.write_all(record)?;
        // A program that prints at its end alone is waited for once.
        waits = waits && wait_for(&length, *wanted);
    }
    drop(input);
    let comings = watcher.join().map_err(|_| no_pipe())??;
    process.wait()?;
    Ok((sent, comings))
}

/// Gives how long the text of each record took that has some, in microseconds, sorted.
fn times_of(sent: &[Instant], lengths: &[u64], comings: &Comings) -> Vec<f64> {
    let mut before = 0;
    let mut times: Vec<f64> = sent
        .iter()
        .zip(lengths)
        .filter_map(|(sent, &length)| {
            let has_text = length > std::mem::replace(&mut before, length);
            let place = comings.partition_point(|coming| coming.1 < length);
            let (came, _) = comings.get(place).filter(|_| has_text)?;
            Some(came.saturating_duration_since(*sent).as_secs_f64() * 1e6)
        })
        .collect();
    times.sort_by(f64::total_cmp);
    times
}

fn measure(arguments: &Arguments) -> Result<(), String> {
    let file = std::fs::read(&arguments.file).map_err(|why| format!("{}: {why}", arguments.file))?;
    let (head, mut records) = if arguments.channel.is_some() { frames_of(&file) } else { lines_of(&file) };
    records.truncate(arguments.count);
    let (lengths, whole) = lengths_of(arguments, &head, &records)?;
    let (sent, comings) = send(arguments, &head, &records, &lengths).map_err(|why| why.to_string())?;
    let came = comings.last().map_or(0, |coming| coming.1);
    if came != whole {
        return Err(format!("{came} bytes of text came, where there should be {whole}"));
    }
    if let (Some(last), Some(first)) = (sent.last(), comings.first())
        && first.0 > *last
    {
        println!("no text came before the last record was sent: the program prints at its end alone");
    }
    let times = times_of(&sent, &lengths, &comings);
    let figure = |share| at_share(&times, share).unwrap_or(0.0);
    println!(
        "{} records sent, {} with text; microseconds: median {:.1}, 99 % {:.1}, most {:.1}",
        sent.len(),
        times.len(),
        figure(500),
        figure(990),
        figure(1000),
    );
    Ok(())
}

fn main() -> ExitCode {
    let Some(arguments) = Arguments::of(std::env::args().skip(1)) else {
        eprint!("{HELP}");
        return ExitCode::from(2);
    };
    match measure(&arguments) {
        Ok(()) => ExitCode::SUCCESS,
        Err(why) => {
            eprintln!("latency: {why}");
            ExitCode::FAILURE
        }
    }
}

#[cfg(test)]
mod tests {
    use super::*;

    #[test]
    fn a_record_takes_until_all_of_its_text_came() {
        let start = Instant::now();
        let at = |micros| start + Duration::from_micros(micros);
        let sent = [at(0), at(10), at(20), at(30)];
        // The second record has no text, and the text of the third comes in two pieces.
        let lengths = [5, 5, 20, 30];
        let comings = vec![(at(7), 5), (at(23), 12), (at(29), 20)];
        assert_eq!(times_of(&sent, &lengths, &comings), [7.0, 9.0]);
    }

    #[test]
    fn files_are_cut_into_records() {
        let (head, records) = lines_of(b"I 1 NEAR O\nI 2 FAR O\nA 00\n\nB 01");
        assert_eq!(head, b"I 1 NEAR O\nI 2 FAR O\n");
        assert_eq!(records, [b"A 00\n".to_vec(), b"\n".to_vec(), b"B 01".to_vec()]);
        let record = |bytes: &[u8]| [&[0; 8], (bytes.len() as u32).to_le_bytes().as_slice(), &[0; 4], bytes].concat();
        let file = [vec![9; 24], record(b"one"), record(b"")].concat();
        assert_eq!(frames_of(&file), (vec![9; 24], vec![record(b"one"), record(b"")]));
    }
}

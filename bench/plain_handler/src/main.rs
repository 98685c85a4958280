//! `plain_handler`: reads a capture or a pcap file of one channel from standard input, and prints its books.

use plain_handler::arguments::{Arguments, HELP};
use plain_handler::channel::{FeedAddresses, read_channel};
use plain_handler::instruments::{Instrument, Listing};
use plain_handler::live::{self, MakesBooks, MakesPrinter, MakesShows};
use plain_handler::notes::Notes::StandardError;
use plain_handler::output::Output;
use plain_handler::pcap::run_pcap;
use plain_handler::receiver::Receiver;
use plain_handler::records::{self, CaptureFault};
use plain_handler::shows::{BooksAlone, Printer, Shows, Standing};
use std::fs::File;
use std::mem::ManuallyDrop;
use std::os::fd::FromRawFd;
use std::process::ExitCode;

/// Gives a standard stream without a buffer, which isn't closed at the end.
fn stream(descriptor: i32) -> ManuallyDrop<File> {
    // Safety: standard streams are open, and nothing here closes them.
    ManuallyDrop::new(unsafe { File::from_raw_fd(descriptor) })
}

/// A way to show the books, and to end with an exit status.
trait Ends: Shows + Sized {
    fn finish(self, standing: Standing) -> u8;
}

impl Ends for Printer<&File> {
    fn finish(self, _standing: Standing) -> u8 {
        if self.output.has_failed() {
            StandardError.tell(&format!("42 Output after {} bytes", self.output.written()));
            return 1;
        }
        0
    }
}

impl Ends for BooksAlone {
    fn finish(self, standing: Standing) -> u8 {
        let BooksAlone { event_ends, books, faulty, jumps, sum } = self;
        let state = if standing.is_lost { "lost" } else { "live" };
        let next = standing.next;
        println!("event-ends {event_ends} books {books} faulty {faulty} jumps {jumps} sum {sum} next {next} {state}");
        0
    }
}

fn main() -> ExitCode {
    let words = std::env::args_os().skip(1).map(|word| word.into_string());
    let arguments = match words.collect::<Result<Vec<_>, _>>() {
        Ok(words) => Arguments::of(words),
        Err(_) => Err("error: a word of the command line is not UTF-8".to_owned()),
    };
    let status = match arguments {
        Ok(arguments) if arguments.help => {
            let output = stream(1);
            let mut output = Output::new(&*output);
            output.text(HELP.as_bytes());
            output.flush();
            u8::from(output.has_failed())
        }
        Ok(arguments) if arguments.books_alone => run(&arguments, MakesBooks),
        Ok(arguments) => run(&arguments, MakesPrinter(&*stream(1))),
        Err(why) => {
            StandardError.tell(&format!("{why}\n\nFor more information, try '--help'."));
            2
        }
    };
    ExitCode::from(status)
}

/// Runs over standard input, and gives the exit status.
fn run<M>(arguments: &Arguments, makes: M) -> u8
where
    M: MakesShows,
    M::Shows: Ends,
{
    match &arguments.channel {
        Some(file) => match channel_of(file) {
            Ok((listing, addresses)) => run_frames(arguments, &listing, &addresses, makes),
            Err(why) => {
                StandardError.tell(&why);
                2
            }
        },
        None if arguments.is_live => run_live(arguments, makes),
        None => run_whole(arguments, makes),
    }
}

fn channel_of(file: &str) -> Result<(Listing, FeedAddresses), String> {
    let text = std::fs::read(file).map_err(|_| "channel: 64 ChannelRead".to_owned())?;
    read_channel(&text).map_err(|fault| fault.told())
}

/// Ends a run whose input came to its end.
fn finish<S: Ends>(receiver: Receiver<S>) -> u8 {
    let standing = receiver.standing();
    receiver.end().finish(standing)
}

/// Ends a run with notes on what is missing.
fn finish_with_notes<S: Ends>(mut receiver: Receiver<S>, instruments: &[Instrument]) -> u8 {
    if receiver.shows().has_failed() {
        return receiver.into_shows().finish(Standing { next: 0, is_lost: false });
    }
    receiver.put_end();
    if !receiver.shows().has_failed() {
        StandardError.tell_end(&receiver, instruments);
    }
    let standing = receiver.standing();
    receiver.into_shows().finish(standing)
}

/// Reads a whole capture, and then handles it.
fn run_whole<M>(arguments: &Arguments, mut makes: M) -> u8
where
    M: MakesShows,
    M::Shows: Ends,
{
    let input = stream(0);
    let size = input.metadata().ok().filter(|data| data.is_file()).map_or(0, |data| data.len() as usize);
    let (listing, records) = match records::read_capture(&*input, size) {
        Ok(capture) => capture,
        Err(fault) => return refuse(fault),
    };
    records.skipped.iter().for_each(|(line, why)| StandardError.tell(&format!("line {line}: {}", why.told())));
    let instruments = listing.instruments();
    let mut receiver = Receiver::new(instruments, arguments.start, makes.shows(instruments));
    records::handle(&records, &mut receiver);
    let status = if receiver.shows().has_failed() {
        receiver.into_shows().finish(Standing { next: 0, is_lost: false })
    } else {
        finish(receiver)
    };
    // What was read goes with the process.
    std::mem::forget(records);
    status
}

/// Tells why a capture can't be handled.
fn refuse(fault: CaptureFault) -> u8 {
    match fault {
        CaptureFault::Refused(refusal) => {
            StandardError.tell(&refusal.told());
            2
        }
        CaptureFault::Input => {
            StandardError.tell("43 Input");
            1
        }
    }
}

/// Handles a capture as it comes.
fn run_live<M>(arguments: &Arguments, makes: M) -> u8
where
    M: MakesShows,
    M::Shows: Ends,
{
    let (outcome, receiver) = live::run_capture(&*stream(0), arguments.start, makes, StandardError);
    match (outcome, receiver) {
        (Ok(listing), Some(receiver)) => finish_with_notes(receiver, listing.instruments()),
        (Ok(_), None) => 0,
        (Err(fault), _) => refuse(fault),
    }
}

/// Handles a pcap file as it comes.
fn run_frames<M>(arguments: &Arguments, listing: &Listing, addresses: &FeedAddresses, makes: M) -> u8
where
    M: MakesShows,
    M::Shows: Ends,
{
    let instruments = listing.instruments();
    let (outcome, receiver) = run_pcap(&*stream(0), instruments, addresses, arguments.start, makes, StandardError);
    match outcome {
        Ok(()) => finish_with_notes(receiver, instruments),
        Err(fault) => {
            let status = if fault.ends_run() { finish_with_notes(receiver, instruments) } else { 0 };
            StandardError.tell(&fault.told());
            status.max(fault.status())
        }
    }
}

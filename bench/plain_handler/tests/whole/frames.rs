//! Pcap files: the text is that of their whole frames, wherever they end.

use crate::streams::{Slow, Text};
use plain_handler::channel::read_channel;
use plain_handler::live::MakesPrinter;
use plain_handler::notes::Notes;
use plain_handler::pcap::run_pcap;
use plain_handler::pcap_file::PcapFault;
use plain_handler::receiver::Start;

const CHANNEL: &str = "I 1 NEAR O\nF A 224.0.31.1 14310\nF S 224.0.31.43 14310\nF B 224.0.32.1 15310\n";
const A: ([u8; 4], u16) = ([224, 0, 31, 1], 14310);
const B: ([u8; 4], u16) = ([224, 0, 32, 1], 15310);
const S: ([u8; 4], u16) = ([224, 0, 31, 43], 14310);

/// Runs over a pcap file that comes in pieces, and gives its text and the fault that ended it.
fn run(file: &[u8], piece: usize) -> (String, Result<(), PcapFault>) {
    let (listing, addresses) = read_channel(CHANNEL.as_bytes()).unwrap();
    let text = Text::default();
    let start = Start { window: 4, joins: false };
    let makes = MakesPrinter(text.clone());
    let (outcome, receiver) =
        run_pcap(Slow(file, piece), listing.instruments(), &addresses, start, makes, Notes::Nowhere);
    receiver.end();
    let text = text.0.take();
    (String::from_utf8(text).unwrap(), outcome)
}

/// Makes a packet with one new best bid.
fn packet(number: u32, price: i64) -> Vec<u8> {
    let mut bytes = number.to_le_bytes().to_vec();
    bytes.extend([0; 8]);
    for number in [56u16, 11, 46, 1, 9] {
        bytes.extend(number.to_le_bytes());
    }
    bytes.extend([0, 0, 0, 0, 0, 0, 0, 0, 128, 0, 0, 32, 0, 1]);
    bytes.extend(price.to_le_bytes());
    bytes.extend(5i32.to_le_bytes());
    bytes.extend(1i32.to_le_bytes());
    bytes.extend([0, 0, 0, 0, 1, 0, 0, 0, 1, 0, b'0', 0, 0, 0, 0, 0]);
    bytes
}

/// Makes an Ethernet frame with a UDP datagram, and the tags of virtual networks before its IPv4 packet.
fn frame(address: ([u8; 4], u16), payload: &[u8], tags: &[u16]) -> Vec<u8> {
    let (group, port) = address;
    let mut frame = vec![0; 12];
    tags.iter().for_each(|tag| frame.extend([tag.to_be_bytes(), [0, 7]].concat()));
    frame.extend([0x08, 0x00, 0x45, 0]);
    frame.extend((28 + payload.len() as u16).to_be_bytes());
    frame.extend([0, 0, 0x40, 0, 16, 17, 0, 0, 10, 0, 0, 1]);
    frame.extend(group);
    frame.extend(40_000u16.to_be_bytes());
    frame.extend(port.to_be_bytes());
    frame.extend((8 + payload.len() as u16).to_be_bytes());
    frame.extend([0, 0]);
    frame.extend(payload);
    frame
}

/// Makes a pcap file, by the bytes of its numbers.
fn pcap(frames: &[Vec<u8>], bytes_of: fn(u32) -> [u8; 4]) -> Vec<u8> {
    let version = if bytes_of(1)[0] == 1 { 2 | 4 << 16 } else { 4 | 2 << 16 };
    let mut file: Vec<u8> = [0xa1b2_c3d4, version, 0, 0, 65_535, 1].into_iter().flat_map(bytes_of).collect();
    for frame in frames {
        let length = frame.len() as u32;
        file.extend([1, 2, length, length].into_iter().flat_map(bytes_of));
        file.extend(frame);
    }
    file
}

/// Makes a pcapng file of two sections: enhanced packets, and simple ones behind an interface that is not read.
fn pcapng(frames: &[Vec<u8>]) -> Vec<u8> {
    let block = |kind: u32, bytes_of: fn(u32) -> [u8; 4], body: &[u8]| {
        let padded = body.len().next_multiple_of(4);
        let mut block = [bytes_of(kind), bytes_of(12 + padded as u32)].concat();
        block.extend(body);
        block.resize(8 + padded, 0);
        block.extend(bytes_of(12 + padded as u32));
        block
    };
    let section = |bytes_of: fn(u32) -> [u8; 4], version: [u8; 4]| {
        block(0x0a0d_0d0a, bytes_of, &[bytes_of(0x1a2b_3c4d), version, [255; 4], [255; 4]].concat())
    };
    let (first, second) = frames.split_at(frames.len() / 2);
    let mut file = section(u32::to_le_bytes, [1, 0, 0, 0]);
    file.extend(block(1, u32::to_le_bytes, &[147, 0, 0, 0, 0, 0, 0, 0]));
    file.extend(block(1, u32::to_le_bytes, &[1, 0, 0, 0, 0, 0, 4, 0]));
    for frame in first {
        let numbers = [1, 0, 0, frame.len() as u32, frame.len() as u32].map(u32::to_le_bytes);
        file.extend(block(6, u32::to_le_bytes, &[numbers.as_flattened(), frame].concat()));
        file.extend(block(77, u32::to_le_bytes, b"not known"));
    }
    file.extend(section(u32::to_be_bytes, [0, 1, 0, 0]));
    file.extend(block(1, u32::to_be_bytes, &[0, 1, 0, 0, 0, 0, 0, 0]));
    for frame in second {
        let length = (frame.len() as u32).to_be_bytes();
        file.extend(block(3, u32::to_be_bytes, &[length.as_slice(), frame].concat()));
    }
    file
}

/// Makes frames of a feed, frames of none, and refused datagrams.
fn frames() -> Vec<Vec<u8>> {
    let one = packet(1, 100);
    vec![
        frame(A, &one, &[]),
        vec![0xff; 60],
        frame(B, &one, &[0x8100]),
        frame(A, &one[..40], &[]),
        frame((A.0, 14311), &packet(2, 7), &[]),
        frame(S, &one[..5], &[]),
        frame(([224, 0, 31, 2], A.1), &packet(2, 7), &[]),
        frame(B, &packet(2, 101), &[0x88a8, 0x8100]),
        frame(A, &packet(2, 101), &[]),
        frame(B, &[], &[]),
    ]
}

const TEXT: &str = "D 1.1 NEAR B 100x5 O\nI 1.1 NEAR B O\nC 1.1 NEAR B 100x5 O\n\
    D 2.1 NEAR B 101x5 100x5 O\nI 2.1 NEAR B O\nC 2.1 NEAR B 101x5 100x5 O\n\
    X A 4 5 SizePast\nX B 10 1 TooShort\nX S 6 1 TooShort\nZ 3 live\n";

#[test]
fn lines_bear_the_numbers_of_frames_in_both_orders_of_bytes_and_all_pieces() {
    for bytes_of in [u32::to_le_bytes, u32::to_be_bytes] {
        for piece in [1, 2, 7, 1 << 20] {
            assert_eq!(run(&pcap(&frames(), bytes_of), piece), (TEXT.to_owned(), Ok(())));
            assert_eq!(run(&pcapng(&frames()), piece), (TEXT.to_owned(), Ok(())));
        }
    }
}

#[test]
fn a_file_cut_anywhere_gives_the_text_of_its_whole_frames() {
    let frames = frames();
    let file = pcap(&frames, u32::to_le_bytes);
    for length in 0..file.len() {
        let whole = (0..=frames.len()).rfind(|&count| pcap(&frames[..count], u32::to_le_bytes).len() <= length);
        let (text, outcome) = run(&file[..length], 1 << 20);
        let Some(whole) = whole else {
            let wanted = if length < 4 { PcapFault::NotPcap } else { PcapFault::CutShort(1) };
            assert_eq!((text.as_str(), outcome), ("Z 1 live\n", Err(wanted)));
            continue;
        };
        let file_of_whole = pcap(&frames[..whole], u32::to_le_bytes);
        assert_eq!(text, run(&file_of_whole, 1 << 20).0, "{length}");
        let is_whole = file_of_whole.len() == length;
        assert_eq!(outcome, if is_whole { Ok(()) } else { Err(PcapFault::CutShort(whole as u64 + 1)) });
    }
}

#[test]
fn frames_that_bring_no_datagram_change_nothing() {
    let good = frame(A, &packet(1, 100), &[]);
    let mut fragment = good.clone();
    fragment[20] = 0x20;
    let mut cut = good.clone();
    cut.truncate(70);
    let mut short_header = good.clone();
    short_header[14] = 0x44;
    let mut udp_size = good.clone();
    udp_size[38..40].copy_from_slice(&7u16.to_be_bytes());
    let mut tcp = good.clone();
    tcp[23] = 6;
    let frames = [fragment, cut, short_header, udp_size, tcp, good[..20].to_vec(), good[..13].to_vec(), vec![]];
    assert_eq!(run(&pcap(&frames, u32::to_le_bytes), 1 << 20), ("Z 1 live\n".to_owned(), Ok(())));
}

#[test]
fn other_files_and_other_links_are_refused() {
    let mut link = pcap(&frames(), u32::to_le_bytes);
    link[20] = 147;
    assert_eq!(run(&link, 1 << 20).1, Err(PcapFault::LinkType(1)));
    assert_eq!(run(&link[..24], 1 << 20).1, Ok(()));
    let mut version = pcap(&frames(), u32::to_le_bytes);
    version[4] = 3;
    assert_eq!(run(&version, 1 << 20).1, Err(PcapFault::NotPcap));
    let mut section = pcapng(&frames());
    section[12] = 2;
    assert_eq!(run(&section, 1 << 20).1, Err(PcapFault::NotPcap));
    assert_eq!(run(b"I 1 NEAR O\nA 00\n and more of the same", 1 << 20).1, Err(PcapFault::NotPcap));
    let mut long = pcap(&frames()[..2], u32::to_le_bytes);
    long[24 + 8..24 + 12].copy_from_slice(&262_145u32.to_le_bytes());
    assert_eq!(run(&long, 1 << 20).1, Err(PcapFault::RecordSize(1)));
}

#[test]
fn a_bent_byte_or_a_cut_ends_no_run_with_a_panic() {
    for file in [pcap(&frames(), u32::to_le_bytes), pcapng(&frames())] {
        for place in 0..file.len() {
            for change in [0x01, 0x80, 0xff] {
                let mut bent = file.clone();
                bent[place] ^= change;
                assert!(run(&bent, 1 << 20).0.contains("Z "));
            }
            assert!(run(&file[..place], 1 << 20).0.contains("Z "));
        }
    }
}

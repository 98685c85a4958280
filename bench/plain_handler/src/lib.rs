//! A handler of one market data channel in plain Rust, to be measured beside `mdp_handler`.
//!
//! It takes the same captures and options and prints the same bytes, on one thread. Nothing of it is proved, and it
//! uses `unsafe` where that makes it quicker.

pub mod arguments;
pub mod audits;
pub mod book;
pub mod channel;
pub mod decimal;
pub mod desk;
pub mod frame;
pub mod hex;
pub mod input;
pub mod instruments;
pub mod lines;
pub mod live;
pub mod notes;
pub mod output;
pub mod pcap;
pub mod pcap_file;
pub mod pieces;
pub mod processor;
pub mod receiver;
pub mod records;
pub mod refusal;
pub mod same;
pub mod shows;
pub mod side;
pub mod slots;
pub mod wire;

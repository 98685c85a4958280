//! Tests of the whole handler.

mod datagrams;
mod frames;
mod live;
mod rows;
mod streams;

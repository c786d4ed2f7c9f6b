// By hand: the traits, and the real shelf and sink. Those in memory, which only tests use, are left out.
mod faults;
mod file_shelf;
mod reading;
mod shelves;
mod sinks;
mod std_sink;
mod writing;

pub use faults::{Failed, OutOfMemory, ReadFault};
pub use file_shelf::FileShelf;
pub use reading::read_whole;
pub use shelves::Shelf;
pub use sinks::Sink;
pub use std_sink::StdSink;
pub use writing::put_all;

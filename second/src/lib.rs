//! The second program: the hub's and the reader's listings once more, written from the rules alone, and the tools that
//! hold the proved programs against them.

pub mod compare;
mod dice;
pub mod form;
pub mod framer;
pub mod hub;
pub mod kept;
pub mod line;
pub mod listing;
pub mod packet;
pub mod program;
pub mod reader;
pub mod sender;
mod shrink;
mod sights;
pub mod streams;
pub mod table;
#[cfg(test)]
mod tests;
mod watch_blocks;
mod watch_cards;
mod watch_hub;
mod watch_reader;
mod watch_room;
mod watch_sets;

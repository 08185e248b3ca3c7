//! The crate's tests, through its safe types and their lent forms.

mod bare;
mod beeps;
mod blocks;
mod cases;
mod constants;
mod conversions;
mod dice;
mod every_byte;
mod fenced;
mod gaps;
mod garbage;
mod going;
mod messages;
mod names;
mod notation;
mod owners;
mod parameters;
mod refusals;
mod rooms;
mod sets;
mod story;
mod streams;
mod tables;

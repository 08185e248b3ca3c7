//! `desk` as a program: what it reads, writes and says.

mod blocks;
mod cases;
mod cuts;
mod help;
mod listings;
mod pipes;
mod places;
mod rooms;
mod run;
mod sets;
mod starts;
mod story;

//! The multiplex's map: annex C's rows, a test for each rule, and broadcasts of which it is known what is in force.

mod broadcasts;
mod fields;
mod finding;
mod frames;
mod healing;
mod laws;
mod limits;
mod listener;
mod lists;
mod maps;
mod missed;
mod parts;
mod sets;
mod story;
mod unknown;

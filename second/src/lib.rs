//! A second register, written from the page of rules alone.
//!
//! The calls follow the walks of the rules on any bytes. Two further parts
//! don't walk: `image` lays the area out anew from a list of records, and
//! `room` looks for an arrangement. With these two `expected` says what a call
//! on an image has to come to, and `witness` holds every call against it.

pub mod answer;
pub mod bytes;
pub mod calls;
pub mod check;
pub mod commands;
pub mod differ;
pub mod expected;
pub mod figures;
pub mod home;
pub mod image;
pub mod log;
pub mod merge;
pub mod page;
pub mod pay_run;
pub mod put;
pub mod raw;
pub mod remove;
pub mod resize;
pub mod room;
pub mod state;
#[cfg(test)]
mod test_files;
pub mod trial;
pub mod walk;
pub mod witness;

//! How a call is answered: by a library of the public calls, or by the copy, which gives the expected answer or what it follows from. What
//! damaged listings give follows from a definition, and so does everything about files.

pub mod behind;
pub mod case;
pub mod copied;
pub mod expect;
pub mod fields;
pub mod library;
pub mod listings;
mod measured;
mod reach;
pub mod run;

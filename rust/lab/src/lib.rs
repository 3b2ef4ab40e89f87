//! The lab: reads sessions for the bench as text, hex or binary, runs them on
//! the proved library, and tells what happens.

#![forbid(unsafe_code)]

pub mod advice;
pub mod asm;
pub mod bytes;
pub mod check;
pub mod input;
pub mod record;
pub mod run;
pub mod show;
pub mod source;
pub mod text;
pub mod timeline;
pub mod trace;
pub mod words;

//! A second implementation of the sharing service, plain and direct, to compare other implementations with.

pub mod allocation;
pub mod book;
pub mod calendar;
mod columns;
pub mod evaluation;
pub mod program;
pub mod refusal;
pub mod registration;
pub mod registration_text;
#[cfg(test)]
mod samples;
pub mod service;

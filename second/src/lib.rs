//! An independent reader, writer and listing of IPDR/XDR documents of
//! version 4, and the tool that compares other programs with it.

pub mod basic;
pub mod book;
pub mod command;
pub mod compare;
pub mod element;
pub mod end;
pub mod examples;
pub mod generate;
pub mod header;
pub mod hex;
pub mod image;
pub mod layout;
pub mod limits;
pub mod listing;
pub mod meaning;
pub mod probe;
pub mod question;
pub mod reading;
pub mod refusal;
pub mod row;
pub mod specimen;
pub mod step;
pub mod string_cases;
pub mod time;
pub mod utf8;
pub mod value;
pub mod walk;
pub mod whole;
pub mod writer;

//! The library, the command and the C header, on forests in a temporary folder.

mod command;
mod header;
mod library;
mod sentences;
mod showing;
mod support;

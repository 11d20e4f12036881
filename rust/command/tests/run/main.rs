//! Runs the built command on files in a folder of its own.

mod answers;
mod books;
mod folder;
mod long;
mod misuse;
mod writing;

//! A caller from outside: calls each name that was set before the code, as it was set.
//!
//! Each file lists its names in lines `//=`. `tests/rattle.py names` counts these names, and those that README.md lists
//! with what is there instead.
//= avrstk

mod desk;
mod emulator;
mod frames;
mod host;
mod images;
mod parts;
mod records;
mod tool;

//! The plain implementation and the generators of input, for C. `plain.h` declares them.
mod entries;
mod flash_entries;
mod generators;
mod slices;

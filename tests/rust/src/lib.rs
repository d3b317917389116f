//! The static library seen from Rust, an independent implementation to hold it to, and random input for both.
pub mod answers;
pub mod boards;
pub mod custom_runs;
pub mod cuts;
pub mod damage;
pub mod decisions;
pub mod entries;
pub mod flash;
pub mod frondicare;
pub mod guarded;
pub mod header;
pub mod histories;
pub mod images;
pub mod layouts;
pub mod loader;
pub mod paper;
pub mod power_ups;
pub mod powered;
pub mod random;
pub mod raw_step;
pub mod records;
pub mod requests;
pub mod runner;
pub mod runs;
pub mod seen;
pub mod sha256;
pub mod staged;
pub mod states;
pub mod totals;
pub mod trailers;
pub mod writer;

/// The name of the test that runs, for what it prints.
pub fn test_name() -> String {
    std::thread::current().name().unwrap_or("test").to_string()
}

/// Bytes as a failed test prints them.
pub fn hex(bytes: &[u8]) -> String {
    bytes.iter().map(|byte| format!("{byte:02x}")).collect()
}

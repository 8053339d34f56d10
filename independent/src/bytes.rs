//! Big-endian writing of case files, and the two files of a vector program.

use std::io;

/// Command line of a vector program: where the cases and the expected text go.
pub fn write_files(cases: &[u8], expected: &str) -> io::Result<()> {
    write_named(&words(), cases, expected)
}

/// The words of the command line.
pub fn words() -> Vec<String> {
    std::env::args().skip(1).collect()
}

/// The same for names that a program has looked at itself.
pub fn write_named(names: &[String], cases: &[u8], expected: &str) -> io::Result<()> {
    let [stdin, stdout] = names else {
        let usage = "two arguments: OUT_STDIN OUT_STDOUT";
        return Err(io::Error::new(io::ErrorKind::InvalidInput, usage));
    };
    std::fs::write(stdin, cases)?;
    std::fs::write(stdout, expected)
}

pub fn u16_of(length: usize) -> [u8; 2] {
    u16::try_from(length)
        .expect("length fits 16 bits")
        .to_be_bytes()
}

pub fn u32_of(length: usize) -> [u8; 4] {
    u32::try_from(length)
        .expect("length fits 32 bits")
        .to_be_bytes()
}

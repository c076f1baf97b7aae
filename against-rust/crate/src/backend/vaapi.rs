//! The door to the harness: `h265::vaapi` is private to `h265`, so the program reaches it through this trait.

pub trait Harness {
    /// Runs the recordings of standard input and writes what the decoder says to standard output.
    fn run(show: bool);
}

pub struct Rust;

use cros_codecs::backend::vaapi::{Harness, Rust};

fn main() {
    Rust::run(std::env::args().any(|word| word == "--show"))
}

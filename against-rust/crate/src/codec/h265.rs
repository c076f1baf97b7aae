pub mod dpb;
pub mod parser;
pub mod picture;

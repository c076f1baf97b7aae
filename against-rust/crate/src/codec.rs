pub mod h265;

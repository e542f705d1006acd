//! Stand-in: an error type that error.rs converts from; never built.
pub mod errors {
    #[derive(Debug)]
    pub struct ParquetError;
    impl std::fmt::Display for ParquetError {
        fn fmt(&self, f: &mut std::fmt::Formatter<'_>) -> std::fmt::Result {
            f.write_str("stand-in")
        }
    }
    impl std::error::Error for ParquetError {}
}

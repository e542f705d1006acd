//! Stand-in: an error type that error.rs converts from; never built.
pub mod channel {
    pub mod mpsc {
        #[derive(Debug)]
        pub struct SendError;
        impl std::fmt::Display for SendError {
            fn fmt(&self, f: &mut std::fmt::Formatter<'_>) -> std::fmt::Result {
                f.write_str("stand-in")
            }
        }
        impl std::error::Error for SendError {}
    }
}

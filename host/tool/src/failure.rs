//! Why a subcommand ends without its work done.

/// What the program is called, by itself and by its messages.
pub const NAME: &str = env!("CARGO_PKG_NAME");

/// A message for standard error, and the exit status.
pub struct Failure {
    pub message: String,
    pub status: u8,
}

impl Failure {
    /// The input is not a model, or does not fit one.
    pub fn refused(message: impl Into<String>) -> Failure {
        Failure { message: message.into(), status: 1 }
    }

    /// The command was not used rightly.
    pub fn usage(message: impl std::fmt::Display) -> Failure {
        Failure { message: format!("{NAME}: {message}"), status: 2 }
    }

    /// A file cannot be read or written.
    pub fn file(path: &str, error: std::io::Error) -> Failure {
        Failure::usage(format!("{path}: {error}"))
    }
}

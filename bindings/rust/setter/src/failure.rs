//! Why the program ends early, and with which status.
use crate::paint;
use std::process::ExitCode;

/// A message for standard error.
#[derive(Debug)]
pub enum Failure {
    /// The program was called wrongly: 2.
    Usage(String),
    /// A file cannot be read or written, or what it says is turned down: 1.
    Input(String),
    /// Whoever reads standard output has gone away: nothing is left to say.
    Unheard,
}

impl Failure {
    pub fn input(message: impl Into<String>) -> Failure {
        Failure::Input(message.into())
    }

    /// The same, of a script's line.
    pub fn at(self, path: &str, line: usize) -> Failure {
        match self {
            Failure::Input(message) => Failure::Input(format!("{path}:{line}: {message}")),
            other => other,
        }
    }

    /// Tells it and gives the status.
    pub fn tell(&self) -> ExitCode {
        match self {
            Failure::Usage(message) => {
                eprintln!("setter: {message}");
                ExitCode::from(2)
            }
            Failure::Input(message) => {
                let colours = paint::wanted(&std::io::stderr());
                eprintln!("{}", if colours { paint::painted(message) } else { message.clone() });
                ExitCode::from(1)
            }
            Failure::Unheard => ExitCode::SUCCESS,
        }
    }
}

/// Of standard output: a reader that has gone away ends the printing, anything else is told.
impl From<std::io::Error> for Failure {
    fn from(error: std::io::Error) -> Failure {
        match error.kind() {
            std::io::ErrorKind::BrokenPipe => Failure::Unheard,
            _ => Failure::Input(format!("setter: standard output: {error}")),
        }
    }
}

//! Why a subject isn't measured.

use rx_base::MatchError;
use rx_build::BuildError;
use rx_expr::ExprError;
use rx_script::BadKind;
use rx_wire::DeserializeError;
use std::alloc::AllocError;
use std::io;
use std::process::ExitCode;
use thiserror::Error;

/// Why a subject isn't measured.
#[derive(Debug, Drop, Error)]
pub(crate) enum Fault {
    /// The words are wrong, or a number or a text is too large.
    #[error("usage: bench build FILE REPEATS [parts | find TEXT | sparse TEXT]
       bench equal dense|sparse IMAGE dense|sparse IMAGE TIMES
       bench image ROWS TIMES, with 3 to 1000000 rows
       bench refine chain|random|twins|grid ROWS UNITS, with 2 to 1000000 rows and at most 1000 units
       bench scan dense|sparse IMAGE TEXT TIMES
       bench search literal|halves|one|two|three LEN EVERY TIMES, with at most 2^30 bytes
       bench stream dense|sparse IMAGE TEXT TIMES
       bench each")]
    Usage,
    /// A script has a fault.
    #[error("line {line}: bad {kind}")]
    Script {
        /// The number of the line, from 1.
        line: u64,
        /// The fault of the line.
        kind: BadKind,
    },
    /// The expression of a table can't be made.
    #[error("no table: {0}")]
    Expression(#[from] ExprError),
    /// A table can't be built.
    #[error("no table: {0}")]
    Build(#[from] BuildError),
    /// A search ended with an error.
    #[error("{0}")]
    Search(#[from] MatchError),
    /// The image of a table was rejected.
    #[error("{0}")]
    Image(#[from] DeserializeError),
    /// A table has too many patterns to be compared.
    #[error("more than 65536 patterns")]
    Patterns,
    /// Memory ran out.
    #[error("{0}")]
    Memory(#[from] AllocError),
    /// Memory ran out, or the words, the clock, a file or an output failed.
    #[error("{0}")]
    Io(#[from] io::Error),
}

impl Fault {
    /// The exit status.
    pub(crate) fn status(&self) -> ExitCode {
        match self {
            Fault::Usage => ExitCode::from(2),
            Fault::Script { .. } | Fault::Expression(_) | Fault::Build(_) | Fault::Search(_) => {
                ExitCode::from(3)
            }
            Fault::Image(_) | Fault::Patterns | Fault::Memory(_) | Fault::Io(_) => {
                ExitCode::FAILURE
            }
        }
    }
}

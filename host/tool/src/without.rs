//! What is said of runs where the proved library is not built in.

use crate::arguments::Arguments;
use crate::failure::Failure;

/// `trace`, which needs the library.
pub fn trace(_: Arguments) -> Result<(), Failure> {
    Err(without())
}

/// `explain`, which needs the library.
pub fn explain(_: Arguments) -> Result<(), Failure> {
    Err(without())
}

/// `compare`, which needs the library.
pub fn compare(_: Arguments) -> Result<(), Failure> {
    Err(without())
}

fn without() -> Failure {
    Failure::usage("this build is without the proved library: 'tools/tool' builds it in where a model is run")
}

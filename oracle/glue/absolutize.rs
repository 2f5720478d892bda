//! Stands in for the crate path_absolutize.

use std::io;
use std::path::{Path, PathBuf};

/// A path made absolute.
pub trait Absolutize {
    fn absolutize(&self) -> io::Result<PathBuf>;
}

impl Absolutize for Path {
    // The path, seen from the working directory.
    fn absolutize(&self) -> io::Result<PathBuf> {
        Ok(std::env::current_dir()?.join(self))
    }
}

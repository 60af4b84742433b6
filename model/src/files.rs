//! Errors of files, told with the path that they are about.

use std::io;
use std::path::Path;

/// Turns an error into a message that names the path.
pub fn of_file(path: impl AsRef<Path>) -> impl FnOnce(io::Error) -> String {
    move |error| format!("{}: {error}", path.as_ref().display())
}

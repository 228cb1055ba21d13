//! Writes the file that the lister is run on, and its list: `listing FILE LIST`.
//!
//! The same two files come out every time.

use compare::listing::{list, longest_file};
use std::process::ExitCode;

fn main() -> ExitCode {
    let arguments: Vec<_> = std::env::args_os().skip(1).collect();
    let [file_path, list_path] = &arguments[..] else {
        eprintln!("usage: listing FILE LIST");
        return ExitCode::from(2);
    };
    let file = longest_file();
    let list = list(&file);
    for (path, bytes) in [(file_path, &file[..]), (list_path, list.as_bytes())] {
        if let Err(error) = std::fs::write(path, bytes) {
            eprintln!("{}: {error}", path.to_string_lossy());
            return ExitCode::FAILURE;
        }
    }
    ExitCode::SUCCESS
}

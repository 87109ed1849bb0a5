//! Checks the files named as arguments, for the desk program's retailer and
//! distributor, and prints for each its name, number, code and line.

use std::env;
use std::fs;
use std::path::Path;
use std::process::ExitCode;

use reference::check::check;
use reference::codes::rejection_code;
use reference::generate::RETAILER;

fn answer(path: &Path) -> std::io::Result<String> {
    let (number, line) = check(RETAILER, b"0040", &fs::read(path)?);
    let code = rejection_code(u64::from(number)).unwrap_or(0);
    let name = path.file_name().unwrap_or_default().to_string_lossy();
    Ok(format!("{name} {number} {code} {line}"))
}

fn main() -> ExitCode {
    for argument in env::args_os().skip(1) {
        match answer(Path::new(&argument)) {
            Ok(line) => println!("{line}"),
            Err(error) => {
                eprintln!("{}: {error}", argument.to_string_lossy());
                return ExitCode::FAILURE;
            }
        }
    }
    ExitCode::SUCCESS
}

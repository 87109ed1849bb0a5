//! Writes the sample files into the folder given as argument.

use std::path::PathBuf;
use std::process::ExitCode;
use std::{env, fs, io};

use reference::generate::samples::sample_files;

/// The samples are the same every time.
const SEED: u64 = 4;

fn main() -> ExitCode {
    let Some(folder) = env::args_os().nth(1).map(PathBuf::from) else {
        eprintln!("usage: samples FOLDER");
        return ExitCode::FAILURE;
    };
    match write_samples(folder) {
        Ok(()) => ExitCode::SUCCESS,
        Err(error) => {
            eprintln!("samples: {error}");
            ExitCode::FAILURE
        }
    }
}

fn write_samples(folder: PathBuf) -> io::Result<()> {
    fs::create_dir_all(&folder)?;
    for (name, file) in sample_files(SEED) {
        fs::write(folder.join(name), file)?;
    }
    Ok(())
}

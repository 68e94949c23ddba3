//! The script of `tpcc script`, answered by a plain program over arrays: see README.md.

mod database;
mod replies;
mod report;
mod requests;
mod scale;
mod script;
mod tables;
mod text;

use database::Database;
use scale::Scale;
use std::env;
use std::io;
use std::process::ExitCode;

fn main() -> ExitCode {
    let scale = match Scale::from_words(env::args().skip(1)) {
        Ok(scale) => scale,
        Err(fault) => {
            eprintln!("{fault}");
            return ExitCode::from(2);
        }
    };
    match script::run(Database::plain(scale), io::stdin().lock(), io::stdout().lock()) {
        Ok(true) => ExitCode::SUCCESS,
        Ok(false) => ExitCode::FAILURE,
        Err(error) => {
            eprintln!("{error}");
            ExitCode::FAILURE
        }
    }
}

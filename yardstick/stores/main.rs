//! The script of `tpcc script`, answered over a store that one would take instead: see README.md.

#[cfg(lmdb)]
mod lmdb;
#[cfg(lmdb)]
mod lmdb_sys;
#[path = "../replies.rs"]
mod replies;
#[path = "../report.rs"]
mod report;
#[path = "../requests.rs"]
mod requests;
#[path = "../scale.rs"]
mod scale;
#[path = "../script.rs"]
mod script;
#[cfg(sqlite)]
mod sqlite;
#[cfg(sqlite)]
mod sqlite_sys;
mod store;
#[path = "../tables.rs"]
#[allow(dead_code)]
mod tables;
#[path = "../text.rs"]
mod text;
mod transactions;

use scale::Scale;
use std::env;
use std::io;
use std::process::ExitCode;
use store::{Store, fill};
use tables::Tables;
use transactions::Stored;

const USAGE: &str = "stores lmdb|sqlite synced|unsynced reported|unreported FOLDER, then options of the scale";

fn main() -> ExitCode {
    let words: Vec<String> = env::args().skip(1).collect();
    match run(&words) {
        Ok(Ok(true)) => ExitCode::SUCCESS,
        Ok(Ok(false)) => ExitCode::FAILURE,
        Ok(Err(error)) => {
            eprintln!("{error}");
            ExitCode::FAILURE
        }
        Err(fault) => {
            eprintln!("{fault}");
            ExitCode::from(2)
        }
    }
}

/// Runs the script over the store that is asked for, in a folder that has none yet.
fn run(words: &[String]) -> Result<io::Result<bool>, String> {
    let [store, sync, report, folder, options @ ..] = words else {
        return Err(USAGE.to_string());
    };
    let scale = Scale::from_words(options.iter().cloned())?;
    let is_synced = is_first(sync, "synced", "unsynced")?;
    let is_reporting = is_first(report, "reported", "unreported")?;
    match store.as_str() {
        #[cfg(lmdb)]
        "lmdb" => Ok(answer(lmdb::Lmdb::create(folder, is_synced), scale, is_reporting)),
        #[cfg(sqlite)]
        "sqlite" => Ok(answer(sqlite::Sqlite::create(folder, is_synced), scale, is_reporting)),
        _ => Err(USAGE.to_string()),
    }
}

fn is_first(word: &str, first: &str, second: &str) -> Result<bool, String> {
    if word != first && word != second {
        return Err(USAGE.to_string());
    }
    Ok(word == first)
}

fn answer(mut store: impl Store, scale: Scale, is_reporting: bool) -> io::Result<bool> {
    fill(&mut store, &Tables::plain(&scale));
    script::run(Stored::new(store, scale, is_reporting), io::stdin().lock(), io::stdout().lock())
}

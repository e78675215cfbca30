//! The cases in a folder of vectors, each a folder GROUP/CASE, and the settings of each.

use crate::oracle::Settings;
use std::path::{Path, PathBuf};
use std::{fs, io};

/// The folders of a folder's folders, in the order of their names.
pub fn cases_in(folder: &Path) -> io::Result<Vec<PathBuf>> {
    let mut cases = Vec::new();
    for group in folders_in(folder)? {
        cases.extend(folders_in(&group)?);
    }
    Ok(cases)
}

/// `namelen N` and `edition N` of the case's file `args`; 8 and 1 where there is no such line.
pub fn settings(case: &Path) -> Settings {
    let args = fs::read_to_string(case.join("args")).unwrap_or_default();
    let given = |word: &str, otherwise: u32| {
        let number = |line: &str| line.strip_prefix(word)?.trim().parse().ok();
        args.lines().find_map(number).unwrap_or(otherwise)
    };
    Settings {
        name_length: given("namelen ", 8),
        edition: given("edition ", 1),
    }
}

fn folders_in(folder: &Path) -> io::Result<Vec<PathBuf>> {
    let entries = fs::read_dir(folder)?.collect::<io::Result<Vec<_>>>()?;
    let mut folders: Vec<PathBuf> = entries.into_iter().map(|entry| entry.path()).collect();
    folders.retain(|path| path.is_dir());
    folders.sort();
    Ok(folders)
}

//! The golden logs: texts in a folder, beside each the model's listing, and all of them as one batch.

use crate::batch;
use crate::listing::listing;
use crate::text::to_log;
use std::fs;
use std::path::{Path, PathBuf};

/// A file and what it should hold.
pub struct Golden {
    pub path: PathBuf,
    pub contents: Vec<u8>,
}

fn with_path<E: std::fmt::Display>(path: &Path) -> impl Fn(E) -> String + '_ {
    move |error| format!("{}: {error}", path.display())
}

/// The number at the beginning of a file's name: 100 comes after 99 and not after 10.
fn number(path: &Path) -> Option<u32> {
    path.file_name()?.to_str()?.split('-').next()?.parse().ok()
}

/// The files of the folder with this extension, by number and name.
fn files(folder: &Path, extension: &str) -> Result<Vec<PathBuf>, String> {
    let mut paths = Vec::new();
    for entry in fs::read_dir(folder).map_err(with_path(folder))? {
        let path = entry.map_err(with_path(folder))?.path();
        if path.extension().is_some_and(|found| found == extension) {
            paths.push(path);
        }
    }
    paths.sort_by_key(|path| (number(path), path.clone()));
    Ok(paths)
}

/// Everything that belongs beside the texts of the folder.
pub fn make(folder: &Path) -> Result<Vec<Golden>, String> {
    let mut golden = Vec::new();
    let mut logs = Vec::new();
    let mut listings = Vec::new();
    for path in files(folder, "txt")? {
        let text = fs::read_to_string(&path).map_err(with_path(&path))?;
        let log = to_log(&text).map_err(with_path(&path))?;
        let contents = listing(&log);
        golden.push(Golden { path: path.with_extension("listing"), contents: contents.clone() });
        logs.push(log);
        listings.push(contents);
    }
    golden.push(Golden { path: folder.join("batch.stdin"), contents: batch::input(&logs) });
    golden.push(Golden { path: folder.join("batch.stdout"), contents: batch::output(&listings) });
    Ok(golden)
}

/// The first file that is not as it should be: another content, missing, or a listing without a text.
pub fn first_difference(folder: &Path, golden: &[Golden]) -> Result<Option<PathBuf>, String> {
    for file in golden {
        if fs::read(&file.path).ok().as_ref() != Some(&file.contents) {
            return Ok(Some(file.path.clone()));
        }
    }
    let listings = files(folder, "listing")?;
    Ok(listings.into_iter().find(|path| golden.iter().all(|file| file.path != *path)))
}

pub fn write(golden: &[Golden]) -> Result<(), String> {
    for file in golden {
        fs::write(&file.path, &file.contents).map_err(with_path(&file.path))?;
    }
    Ok(())
}

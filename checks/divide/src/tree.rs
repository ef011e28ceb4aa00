//! The sources as texts, so that a test can change one of them without a change on the disk.

use std::collections::BTreeMap;
use std::fs;
use std::path::Path;

const LIST: &str = "crates.txt";
const FOLDER: &str = "crates";

#[derive(Clone)]
pub struct Tree {
    /// The text of `crates.txt`.
    pub list: String,
    /// The text of each file, by its path below the root.
    pub files: BTreeMap<String, String>,
}

impl Tree {
    /// `crates.txt`, and every file of code in a crate's `src`.
    pub fn read(root: &Path) -> Result<Tree, String> {
        let list = read_text(root, LIST)?;
        let mut files = BTreeMap::new();
        let mut waiting = source_folders(root)?;
        while let Some(folder) = waiting.pop() {
            let (folders, paths) = entries(root, &folder)?;
            waiting.extend(folders);
            let texts = paths.into_iter().filter(|path| path.ends_with(".rt"));
            let read: Result<Vec<_>, String> = texts.map(|path| Ok((path.clone(), read_text(root, &path)?))).collect();
            files.extend(read?);
        }
        Ok(Tree { list, files })
    }
}

fn source_folders(root: &Path) -> Result<Vec<String>, String> {
    let (crates, _) = entries(root, FOLDER)?;
    let folders = crates.into_iter().map(|folder| folder + "/src");
    Ok(folders.filter(|folder| root.join(folder).is_dir()).collect())
}

/// The folders and the files in a folder, by their paths below the root.
fn entries(root: &Path, folder: &str) -> Result<(Vec<String>, Vec<String>), String> {
    let trouble = |error| format!("{}: {error}", root.join(folder).display());
    let listed: Result<Vec<_>, _> = fs::read_dir(root.join(folder)).map_err(trouble)?.collect();
    let names = listed.map_err(trouble)?.into_iter().map(|entry| entry.file_name());
    let paths = names.map(|name| format!("{folder}/{}", name.to_string_lossy()));
    Ok(paths.partition(|path| root.join(path).is_dir()))
}

fn read_text(root: &Path, path: &str) -> Result<String, String> {
    let path = root.join(path);
    fs::read_to_string(&path).map_err(|error| format!("{}: {error}", path.display()))
}

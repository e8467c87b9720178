//! The roots of Debian's package `ca-certificates`.

use crate::pem;
use std::error::Error;
use std::ffi::OsStr;
use std::fs;
use std::path::Path;

/// Where the package puts them.
pub const FOLDER: &str = "/usr/share/ca-certificates/mozilla";

/// A root, with the name of its file.
pub struct Root {
    pub file: String,
    pub octets: Vec<u8>,
}

impl Root {
    pub fn octets(&self) -> &[u8] {
        &self.octets
    }
}

/// The roots of a folder, a file for each, in the order of their names.
pub fn load(folder: &Path) -> Result<Vec<Root>, Box<dyn Error>> {
    let mut roots = Vec::new();
    for entry in fs::read_dir(folder)? {
        let path = entry?.path();
        if path.extension() == Some(OsStr::new("crt")) {
            roots.push(root(&path)?);
        }
    }
    roots.sort_by(|a, b| a.file.cmp(&b.file));
    Ok(roots)
}

fn root(path: &Path) -> Result<Root, Box<dyn Error>> {
    let file = path.file_name().unwrap_or_default().to_string_lossy();
    let text = fs::read_to_string(path)?;
    let octets = pem::octets(&text).map_err(|fault| format!("{file}: {fault}"))?;
    Ok(Root {
        file: file.into_owned(),
        octets,
    })
}

//! Where the expected answers are: in this repository, or in a copy of them, whose folder MARSHDECK_TRUTH names.

use std::path::{Path, PathBuf};
use std::{env, fs};

pub(crate) fn read(path: &str) -> String {
    let folder = match env::var_os("MARSHDECK_TRUTH") {
        Some(named) => PathBuf::from(named),
        None => Path::new(env!("CARGO_MANIFEST_DIR")).join("../.."),
    };
    let file = folder.join(path);
    fs::read_to_string(&file).unwrap_or_else(|why| panic!("{}: {why}", file.display()))
}

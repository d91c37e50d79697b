//! A folder of its own for what a command makes on the way, removed in the end.

use std::fs;
use std::io;
use std::path::{Path, PathBuf};
use std::sync::atomic::{AtomicUsize, Ordering};

use crate::files::with_path;

/// The folders made so far, so that no two have one name.
static MADE: AtomicUsize = AtomicUsize::new(0);

pub struct Scratch {
    folder: PathBuf,
}

impl Scratch {
    pub fn new() -> io::Result<Scratch> {
        let index = MADE.fetch_add(1, Ordering::Relaxed);
        let name = format!("second-{}-{index}", std::process::id());
        let folder = std::env::temp_dir().join(name);
        // The whole path is kept, as programs are run in other folders.
        let folder = fs::create_dir_all(&folder)
            .and_then(|()| folder.canonicalize())
            .map_err(|error| with_path(&folder, error))?;
        Ok(Scratch { folder })
    }

    pub fn folder(&self) -> &Path {
        &self.folder
    }
}

impl Drop for Scratch {
    fn drop(&mut self) {
        // Nothing is lost if the folder stays.
        let _ = fs::remove_dir_all(&self.folder);
    }
}

//! Nights on which both programs are held to the same bytes before anything is measured.

use std::io;
use std::path::{Path, PathBuf};

use crate::compare::first_difference;
use crate::files::{with_path, EmptyFile};

use super::nights::{CountedNight, Counts};
use super::{Bench, Pair};

/// A night on which both programs print the same bytes.
pub struct HeldNight {
    pub name: String,
    pub folder: PathBuf,
    pub turns: u64,
}

impl Bench<'_> {
    /// A night that stands in a folder, named as the folder is.
    pub fn kept(&self, folder: &Path) -> io::Result<HeldNight> {
        let folder = folder
            .canonicalize()
            .map_err(|error| with_path(folder, error))?;
        let name = folder.file_name().unwrap_or_default().to_string_lossy();
        Ok(HeldNight {
            name: name.into_owned(),
            turns: self.counts(&folder)?.read,
            folder,
        })
    }

    /// A made night, whose sheet must tell the counts it was made for.
    pub fn made(&self, name: &str, night: &CountedNight) -> io::Result<HeldNight> {
        let folder = self.scratch.join(name);
        night.files.write(&folder, EmptyFile::Written)?;
        let counts = self.counts(&folder)?;
        if counts != night.counts {
            let what = format!("{name}: expected {}, got {counts}", night.counts);
            return Err(io::Error::other(what));
        }
        Ok(HeldNight {
            name: name.to_string(),
            folder,
            turns: counts.read,
        })
    }

    /// The counts on the sheet of a folder, the same for both programs.
    fn counts(&self, folder: &Path) -> io::Result<Counts> {
        let sheets = self.programs.sheets.each(|sheet| sheet.output(folder))?;
        let wrong = |what: String| with_path(folder, io::Error::other(what));
        if let Some(difference) = difference(&sheets) {
            return Err(wrong(difference));
        }
        Counts::on(&sheets.second).ok_or_else(|| wrong("a sheet without a turns line".to_string()))
    }
}

fn difference(sheets: &Pair<Vec<u8>>) -> Option<String> {
    let (line, expected, got) = first_difference(&sheets.second, &sheets.proved)?;
    Some(format!("sheet line {line}: expected {expected}, got {got}"))
}

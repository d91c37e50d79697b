//! "`sheet` reads the files size.rec (4 bytes: n, k, R, 0), cues.rec and turns.rec. A missing
//! file counts as empty."

use std::fs::{self, File};
use std::io::{self, BufRead, BufReader, ErrorKind, Read, Write};
use std::path::Path;

pub const SIZE: &str = "size.rec";
pub const CUES: &str = "cues.rec";
pub const TURNS: &str = "turns.rec";

/// Bytes read or written at a time.
pub const PIECE: usize = 1 << 16;

/// An open file of a night, or nothing in place of a missing one.
pub type NightFile = BufReader<Box<dyn Read>>;

/// Opens the three files of a night's folder, size, cues and turns, so that an unreadable one
/// leaves nothing half printed; a folder that is not there is no night.
pub fn open_night(folder: &Path) -> io::Result<[NightFile; 3]> {
    let metadata = fs::metadata(folder).map_err(|error| with_path(folder, error))?;
    if !metadata.is_dir() {
        let error = io::Error::new(ErrorKind::InvalidInput, "not a folder");
        return Err(with_path(folder, error));
    }
    Ok([
        open(folder, SIZE)?,
        open(folder, CUES)?,
        open(folder, TURNS)?,
    ])
}

/// Opens one file of a night and reads its first piece, so that a folder fails here too.
fn open(folder: &Path, name: &str) -> io::Result<NightFile> {
    let source: Box<dyn Read> = match open_named(&folder.join(name)) {
        Ok(file) => Box::new(file),
        Err(error) if error.kind() == ErrorKind::NotFound => Box::new(io::empty()),
        Err(error) => return Err(error),
    };
    let mut file = BufReader::with_capacity(PIECE, source);
    file.fill_buf()?;
    Ok(file)
}

pub fn open_named(path: &Path) -> io::Result<Named<File>> {
    let file = File::open(path).map_err(|error| with_path(path, error))?;
    Ok(Named::new(path.display().to_string(), file))
}

/// Reads a whole file, whose errors then name it.
pub fn read(path: &Path) -> io::Result<Vec<u8>> {
    fs::read(path).map_err(|error| with_path(path, error))
}

/// The bytes of the three files of a night.
#[derive(Clone, Debug, Default, PartialEq, Eq)]
pub struct NightFiles {
    pub size: Vec<u8>,
    pub cues: Vec<u8>,
    pub turns: Vec<u8>,
}

/// What stands in a folder for a file without a byte.
#[derive(Clone, Copy, Debug, PartialEq, Eq)]
pub enum EmptyFile {
    Written,
    LeftOut,
}

impl NightFiles {
    pub fn read(folder: &Path) -> io::Result<NightFiles> {
        let whole = |mut file: NightFile| -> io::Result<Vec<u8>> {
            let mut bytes = Vec::new();
            file.read_to_end(&mut bytes)?;
            Ok(bytes)
        };
        let [size, cues, turns] = open_night(folder)?;
        Ok(NightFiles {
            size: whole(size)?,
            cues: whole(cues)?,
            turns: whole(turns)?,
        })
    }

    pub fn write(&self, folder: &Path, empty: EmptyFile) -> io::Result<()> {
        fs::create_dir_all(folder).map_err(|error| with_path(folder, error))?;
        for (name, bytes) in self.named() {
            let path = folder.join(name);
            if bytes.is_empty() && empty == EmptyFile::LeftOut {
                remove(&path)
            } else {
                fs::write(&path, bytes)
            }
            .map_err(|error| with_path(&path, error))?;
        }
        Ok(())
    }

    pub fn named(&self) -> [(&'static str, &[u8]); 3] {
        [(SIZE, &self.size), (CUES, &self.cues), (TURNS, &self.turns)]
    }
}

/// Removes a file that an earlier night may have left.
fn remove(path: &Path) -> io::Result<()> {
    match fs::remove_file(path) {
        Err(error) if error.kind() != ErrorKind::NotFound => Err(error),
        _ => Ok(()),
    }
}

/// A file or stream whose errors tell its name.
pub struct Named<Inner> {
    name: String,
    inner: Inner,
}

impl<Inner> Named<Inner> {
    pub fn new(name: String, inner: Inner) -> Named<Inner> {
        Named { name, inner }
    }
}

impl<Inner: Read> Read for Named<Inner> {
    fn read(&mut self, bytes: &mut [u8]) -> io::Result<usize> {
        self.inner
            .read(bytes)
            .map_err(|error| with_name(&self.name, error))
    }
}

impl<Inner: Write> Write for Named<Inner> {
    fn write(&mut self, bytes: &[u8]) -> io::Result<usize> {
        self.inner
            .write(bytes)
            .map_err(|error| with_name(&self.name, error))
    }

    fn flush(&mut self) -> io::Result<()> {
        self.inner
            .flush()
            .map_err(|error| with_name(&self.name, error))
    }
}

/// An error that tells of which path it is.
pub fn with_path(path: &Path, error: io::Error) -> io::Error {
    with_name(&path.display().to_string(), error)
}

fn with_name(name: &str, error: io::Error) -> io::Error {
    io::Error::new(error.kind(), format!("{name}: {error}"))
}

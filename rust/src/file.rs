//! A book in a file, so that it survives a crash.
use crate::{Book, StoredError, STORED_BYTES};
use std::error::Error;
use std::fmt;
use std::fs::{self, File};
use std::io::{self, Read, Write};
use std::path::{Path, PathBuf};

impl Book {
    /// Saves the book, so that the file is the old book or the new one wherever this is cut off: its
    /// [stored form](Book::to_bytes) is written beside the file, to `PATH.new`, flushed, and renamed to `PATH`; then
    /// the folder is flushed. After `Ok` the new book stands, even if the power fails: on a disk that keeps what it was
    /// told to flush.
    ///
    /// What was left in `PATH.new` is overwritten. One process at a time may save to a path. The file is a new one,
    /// with the permissions of a new one; if `PATH` is a link, the link is replaced.
    ///
    /// # Errors
    ///
    /// What the system says of a step that failed. The file is then the old book or the new one, and `save` may be
    /// called again.
    pub fn save(&self, path: impl AsRef<Path>) -> io::Result<()> {
        let path = path.as_ref();
        let beside = beside(path);
        write_flushed(&beside, &self.to_bytes())
            .and_then(|()| fs::rename(&beside, path))
            .inspect_err(|_| drop(fs::remove_file(&beside)))?;
        File::open(folder_of(path))?.sync_all()
    }

    /// Loads the book that was saved to a file. Only the file itself is read, never what was left beside it.
    ///
    /// # Errors
    ///
    /// [`LoadError::Io`] if the file cannot be read; its kind is [`NotFound`](io::ErrorKind::NotFound) where there is
    /// none. [`LoadError::Stored`] if what it has is not a stored book.
    pub fn load(path: impl AsRef<Path>) -> Result<Book, LoadError> {
        let mut bytes = Vec::with_capacity(STORED_BYTES + 1);
        File::open(path)?.take(STORED_BYTES as u64 + 1).read_to_end(&mut bytes)?;
        Ok(Book::from_bytes(&bytes)?)
    }
}

fn beside(path: &Path) -> PathBuf {
    let mut name = path.as_os_str().to_owned();
    name.push(".new");
    name.into()
}

fn folder_of(path: &Path) -> &Path {
    path.parent().filter(|folder| !folder.as_os_str().is_empty()).unwrap_or(Path::new("."))
}

fn write_flushed(path: &Path, bytes: &[u8]) -> io::Result<()> {
    let mut file = File::create(path)?;
    file.write_all(bytes)?;
    file.sync_all()
}

/// Why a [`Book`] could not be loaded.
#[derive(Debug)]
#[non_exhaustive]
pub enum LoadError {
    /// The file cannot be read.
    Io(io::Error),
    /// What the file has is not a stored book.
    Stored(StoredError),
}

impl LoadError {
    /// Whether there is no such file: a till that starts for the first time then takes a new book.
    #[must_use]
    pub fn is_not_found(&self) -> bool {
        matches!(self, LoadError::Io(error) if error.kind() == io::ErrorKind::NotFound)
    }
}

impl fmt::Display for LoadError {
    fn fmt(&self, f: &mut fmt::Formatter<'_>) -> fmt::Result {
        match self {
            LoadError::Io(error) => write!(f, "the file could not be read: {error}"),
            LoadError::Stored(error) => error.fmt(f),
        }
    }
}

impl Error for LoadError {
    fn source(&self) -> Option<&(dyn Error + 'static)> {
        match self {
            LoadError::Io(error) => Some(error),
            LoadError::Stored(error) => Some(error),
        }
    }
}

impl From<io::Error> for LoadError {
    fn from(error: io::Error) -> LoadError {
        LoadError::Io(error)
    }
}

impl From<StoredError> for LoadError {
    fn from(error: StoredError) -> LoadError {
        LoadError::Stored(error)
    }
}

//! The new file beside the one that is kept.

use std::ffi::OsString;
use std::fs::{self, File, OpenOptions, TryLockError};
use std::io::{self, ErrorKind, Write};
use std::os::unix::fs::{fchown, MetadataExt};
use std::path::{Path, PathBuf};

use cli::plain;

use crate::kept::{existing, of, same_file, Told};
use crate::old::Old;

/// The name with something before it and behind it, in the same folder.
fn beside(place: &Path, before: &str, behind: &str) -> PathBuf {
    let mut name = OsString::from(before);
    name.push(place.file_name().unwrap_or_default());
    name.push(behind);
    place.with_file_name(name)
}

/// The new file, locked; it goes away unless it takes the place of the old one.
#[derive(Debug)]
pub struct New {
    file: File,
    path: PathBuf,
}

impl New {
    pub fn claim(place: &Path, name: &str) -> Told<New> {
        let path = beside(place, ".", ".desk-new");
        loop {
            let (file, made) = match make_or_find(&path, name)? {
                Some(opened) => opened,
                None => continue,
            };
            match file.try_lock() {
                Ok(()) => {
                    let new = New {
                        file,
                        path: path.clone(),
                    };
                    // Whoever had the lock before may have renamed or removed what was opened.
                    if new.stands().map_err(of(path.display()))? {
                        return Ok(new);
                    }
                }
                Err(TryLockError::WouldBlock) => {
                    return Err(format!("{name}: another desk is at work on it"));
                }
                Err(TryLockError::Error(error)) => {
                    if made {
                        let _ = fs::remove_file(&path);
                    }
                    return Err(of(path.display())(error));
                }
            }
        }
    }

    /// Whether it stands under its name, and nothing else does.
    fn stands(&self) -> io::Result<bool> {
        let own = self.file.metadata()?;
        let found = existing(fs::symlink_metadata(&self.path))?;
        Ok(found.is_some_and(|found| same_file(&found, &own)))
    }

    /// Gets the owner and the mode of the old file: who could use that can use this.
    pub fn belong_as(&self, old: &Old) -> io::Result<()> {
        let (own, wanted) = (self.file.metadata()?, &old.known);
        if (own.uid(), own.gid()) != (wanted.uid(), wanted.gid()) {
            fchown(&self.file, Some(wanted.uid()), Some(wanted.gid())).map_err(|error| {
                let message = format!("its owner can't be kept: {}", plain(&error));
                io::Error::new(error.kind(), message)
            })?;
        }
        self.file.set_permissions(wanted.permissions())
    }

    /// The memory, then what the old file has left to read.
    pub fn fill(&mut self, memory: &[u32], old: Option<&mut File>) -> io::Result<()> {
        let bytes: Vec<u8> = memory.iter().flat_map(|word| word.to_le_bytes()).collect();
        self.file.set_len(0)?;
        self.file.write_all(&bytes)?;
        if let Some(old) = old {
            io::copy(old, &mut self.file)?;
        }
        self.file.sync_all()
    }

    /// Takes a name, from whatever has it.
    pub fn take(&self, place: &Path) -> io::Result<()> {
        // Somebody may have tidied it away, and another desk made one of the same name.
        if !self.stands()? {
            let message = format!("{} is gone", self.path.display());
            return Err(io::Error::other(message));
        }
        fs::rename(&self.path, place)
    }

    /// Takes the first name of the kind FILE.desk-1 that nothing has, and tells it.
    pub fn set_aside(&self, place: &Path) -> io::Result<PathBuf> {
        let mut number = 1;
        loop {
            let aside = beside(place, "", &format!(".desk-{number}"));
            // An empty file of this program's own holds the name.
            match File::create_new(&aside) {
                Err(error) if error.kind() == ErrorKind::AlreadyExists => number += 1,
                made => {
                    made?;
                    let taken = self.take(&aside);
                    if taken.is_err() {
                        let _ = fs::remove_file(&aside);
                    }
                    return taken.map(|()| aside);
                }
            }
        }
    }
}

impl Drop for New {
    fn drop(&mut self) {
        // It does no harm if it stays.
        if self.stands().unwrap_or(false) {
            let _ = fs::remove_file(&self.path);
        }
    }
}

/// Opens the file of this name: one made now, which is told, or one that a killed keeper left. None
/// where that one went away meanwhile.
fn make_or_find(path: &Path, name: &str) -> Told<Option<(File, bool)>> {
    match File::create_new(path) {
        Ok(made) => return Ok(Some((made, true))),
        Err(error) if error.kind() == ErrorKind::AlreadyExists => {}
        Err(error) if error.kind() == ErrorKind::InvalidFilename => {
            let told = "the name is too long: that of the new file beside it is longer by 10 bytes";
            return Err(format!("{name}: {told}"));
        }
        Err(error) => {
            let folder = path.parent().unwrap_or(Path::new("/")).display();
            return Err(of(format!("the folder {folder} can't be written"))(error));
        }
    }
    // A link or a pipe of this name is nobody's new file, nor is a file of another name: they are not opened.
    match existing(fs::symlink_metadata(path)).map_err(of(path.display()))? {
        Some(known) if !known.is_file() || known.nlink() > 1 => {
            Err(format!("{} is in the way", path.display()))
        }
        _ => {
            let found = existing(OpenOptions::new().write(true).open(path));
            let found = found.map_err(of(path.display()))?;
            Ok(found.map(|file| (file, false)))
        }
    }
}

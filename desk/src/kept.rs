//! Memory kept in a file: 32-bit words, the lowest byte first.
//!
//! The file is never written: the memory goes to a new file beside it, which takes its name. So
//! whoever looks sees the old memory or the new one whole, whenever this is killed.
//!
//! The new file stands there from the start, under a name that follows from the file's, and a lock
//! on it keeps a second keeper of the same file out. The lock goes with the process that has it; a
//! new file whose keeper was killed is no more in the way, and is taken by the next one.
//!
//! Others know nothing of the lock. So the file is looked at again before it is replaced: one that is
//! not as it was read is left alone, and the new file gets a name beside it instead.

use std::fs::{self, File, Metadata};
use std::io::{self, ErrorKind};
use std::os::unix::fs::MetadataExt;
use std::path::{Path, PathBuf};

use cli::plain;
use fugu::{Node, SIZE};

use crate::new::New;
use crate::old::Old;

/// What was done, or a message that names what failed.
pub type Told<T> = Result<T, String>;

/// What failed, and how.
pub fn of(what: impl std::fmt::Display) -> impl Fn(io::Error) -> String {
    move |error| format!("{what}: {}", plain(&error))
}

/// A file that is kept: nobody else keeps it meanwhile.
#[derive(Debug)]
pub struct Kept {
    /// As it was named.
    name: String,
    /// Where the file stands: no link, but what it leads to.
    place: PathBuf,
    folder: File,
    new: New,
    old: Option<Old>,
    memory: Vec<u32>,
}

impl Kept {
    /// The memory that stands in a file, or at power-on where there is no file. What would keep a
    /// changed memory from being put back is found here, but for a full disk and for what others do
    /// to the file meanwhile.
    pub fn open(path: &Path) -> Told<Kept> {
        let name = path.display().to_string();
        let place = led_to(path)?;
        let folder = place.parent().unwrap_or(Path::new("/"));
        let folder = File::open(folder)
            .map_err(of(format!("the folder {} can't be read", folder.display())))?;
        // Before anything is made beside it, or waits for the other end of a pipe.
        match fs::metadata(&place) {
            Ok(known) if known.is_dir() => return Err(of(&name)(ErrorKind::IsADirectory.into())),
            Ok(known) if !known.is_file() => return Err(format!("{name}: no regular file")),
            _ => {}
        }
        let new = New::claim(&place, &name)?;
        let old = Old::read(&place, &name)?;
        if let Some(old) = &old {
            new.belong_as(old).map_err(of(&name))?;
        }
        let memory = old.as_ref().map_or_else(started, Old::memory);
        Ok(Kept {
            name,
            place,
            folder,
            new,
            old,
            memory,
        })
    }

    /// At most a node's words; none of a file whose last word is cut short.
    pub fn memory(&self) -> &[u32] {
        &self.memory
    }

    /// Where the file stands.
    pub fn place(&self) -> &Path {
        &self.place
    }

    /// Makes these words the file's first, and keeps those behind them. A file that has them
    /// already is left alone.
    pub fn put_back(mut self, memory: &[u32]) -> Told<()> {
        assert_eq!(memory.len(), self.memory.len(), "the memory is as long");
        if self.old.is_some() && memory == self.memory && self.done_to_it()?.is_none() {
            return Ok(());
        }
        let old = self.old.as_mut().map(|old| &mut old.file);
        self.new.fill(memory, old).map_err(of(&self.name))?;
        let Some(done) = self.done_to_it()? else {
            self.new.take(&self.place).map_err(of(&self.name))?;
            // The one failure behind which the file is the new one.
            let told = format!("{} is written, but its folder not synced", self.name);
            return self.folder.sync_all().map_err(of(told));
        };
        let told = format!("{} {done} while the desk was open", self.name);
        let aside = self.new.set_aside(&self.place);
        let aside = aside.and_then(|aside| self.folder.sync_all().map(|()| aside));
        let failed = format!("{told}, and its new memory can't be put beside it");
        let aside = aside.map_err(of(failed))?;
        Err(format!("{told}: its new memory is in {}", aside.display()))
    }

    /// What others did to the file since it was read.
    fn done_to_it(&self) -> Told<Option<&'static str>> {
        let now = existing(fs::symlink_metadata(&self.place)).map_err(of(&self.name))?;
        Ok(match (&self.old, now) {
            (None, None) => None,
            (None, Some(_)) => Some("appeared"),
            (Some(_), None) => Some("was removed"),
            (Some(old), Some(now)) if !same_file(&old.known, &now) => Some("was replaced"),
            (Some(old), Some(now)) => {
                let same = old.is_as_read(&now).map_err(of(&self.name))?;
                (!same).then_some("was changed")
            }
        })
    }
}

/// The file that a path leads to through links, also where it is not there yet.
fn led_to(path: &Path) -> Told<PathBuf> {
    if path.as_os_str().is_empty() {
        return Err("the name of the file is empty".to_string());
    }
    match fs::canonicalize(path) {
        Err(error) if error.kind() == ErrorKind::NotFound => {}
        found => return found.map_err(of(path.display())),
    }
    let folder = match path.parent() {
        Some(folder) if !folder.as_os_str().is_empty() => folder,
        _ => Path::new("."),
    };
    if let Ok(target) = fs::read_link(path) {
        return led_to(&folder.join(target));
    }
    let found = fs::canonicalize(folder);
    let folder = found.map_err(of(format!("the folder {}", folder.display())))?;
    match path.file_name() {
        Some(name) => Ok(folder.join(name)),
        None => Err(of(path.display())(ErrorKind::NotFound.into())),
    }
}

/// None where a file is not there.
pub fn existing<T>(found: io::Result<T>) -> io::Result<Option<T>> {
    match found {
        Ok(found) => Ok(Some(found)),
        Err(error) if error.kind() == ErrorKind::NotFound => Ok(None),
        Err(error) => Err(error),
    }
}

pub fn same_file(one: &Metadata, other: &Metadata) -> bool {
    (one.dev(), one.ino()) == (other.dev(), other.ino())
}

fn started() -> Vec<u32> {
    let node = Node::power_on(vec![0; SIZE]).expect("the memory is long enough");
    node.into_memory()
}

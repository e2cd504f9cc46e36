//! The file as it was read.

use std::fs::{File, Metadata, OpenOptions};
use std::io::{self, ErrorKind, Read};
use std::os::unix::fs::{FileExt, MetadataExt};
use std::path::Path;

use fugu::{words_of_file, FILE_BYTES};

use crate::kept::{existing, of, Told};

/// The file as it was read, which stays open: no other file gets its number meanwhile.
#[derive(Debug)]
pub struct Old {
    /// Read as far as a node goes.
    pub file: File,
    pub known: Metadata,
    bytes: Vec<u8>,
}

impl Old {
    /// None where there is no file. One with more names than one is refused: the others would keep the
    /// old memory.
    pub fn read(place: &Path, name: &str) -> Told<Option<Old>> {
        let opened = existing(OpenOptions::new().read(true).write(true).open(place))
            .map_err(of(format!("{name} can't be read and written")))?;
        let Some(mut file) = opened else {
            return Ok(None);
        };
        let known = file.metadata().map_err(of(name))?;
        if known.nlink() > 1 {
            let names = known.nlink();
            let told = format!(
                "{name} has {names} names (hard links): under the others it would stay as it is"
            );
            return Err(told);
        }
        let mut bytes = Vec::with_capacity(FILE_BYTES);
        let read = file
            .by_ref()
            .take(FILE_BYTES as u64)
            .read_to_end(&mut bytes);
        read.map_err(of(name))?;
        Ok(Some(Old { file, known, bytes }))
    }

    pub fn memory(&self) -> Vec<u32> {
        words_of_file(&self.bytes, self.known.len())
    }

    /// Whether nothing was done to it. Its times tell of every change but one within the same tick of the
    /// clock as the one before; its bytes tell of that one.
    pub fn is_as_read(&self, now: &Metadata) -> io::Result<bool> {
        let stamp = |of: &Metadata| {
            let changed = (of.ctime(), of.ctime_nsec());
            (of.len(), of.mtime(), of.mtime_nsec(), changed)
        };
        if stamp(&self.known) != stamp(now) {
            return Ok(false);
        }
        let mut bytes = vec![0; self.bytes.len()];
        match self.file.read_exact_at(&mut bytes, 0) {
            Err(error) if error.kind() == ErrorKind::UnexpectedEof => Ok(false),
            read => read.map(|()| bytes == self.bytes),
        }
    }
}

#[cfg(test)]
mod tests {
    use std::{env, fs, process};

    use super::Old;

    /// Another byte under the same times, as a change within one tick of the clock leaves it.
    #[test]
    fn a_change_that_no_time_tells() {
        let place = env::temp_dir().join(format!("desk-{}", process::id()));
        fs::write(&place, [1; 8]).unwrap();
        let mut old = Old::read(&place, "node").unwrap().unwrap();
        let now = fs::metadata(&place).unwrap();
        assert!(old.is_as_read(&now).unwrap());
        old.bytes[7] = 2;
        assert!(!old.is_as_read(&now).unwrap());
        fs::remove_file(&place).unwrap();
    }
}

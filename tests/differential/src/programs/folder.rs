//! A fresh folder under the system's temporary one, removed when it is no longer needed, also after a panic.

use std::fs;
use std::io;
use std::path::{Path, PathBuf};

pub struct Folder(PathBuf);

impl Folder {
    /// A name that is taken already, by a run before or beside this one, is passed over.
    pub fn fresh() -> io::Result<Folder> {
        let process = std::process::id();
        for number in 0u64.. {
            let path = std::env::temp_dir().join(format!("differential-{process}-{number}"));
            match fs::create_dir(&path) {
                Ok(()) => return Ok(Folder(path)),
                Err(why) if why.kind() == io::ErrorKind::AlreadyExists => {}
                Err(why) => return Err(why),
            }
        }
        Err(io::ErrorKind::AlreadyExists.into())
    }

    pub fn path(&self) -> &Path {
        &self.0
    }
}

impl Drop for Folder {
    fn drop(&mut self) {
        let _ = fs::remove_dir_all(&self.0);
    }
}

#[cfg(test)]
mod tests {
    use super::Folder;

    #[test]
    fn two_are_apart_and_removed_with_their_files() {
        let (first, second) = (Folder::fresh().unwrap(), Folder::fresh().unwrap());
        assert_ne!(first.path(), second.path());
        std::fs::write(first.path().join("desk.cht"), [1]).unwrap();
        std::fs::create_dir(first.path().join("desk.rul")).unwrap();
        let path = first.path().to_path_buf();
        drop(first);
        assert!(!path.exists() && second.path().exists());
    }
}

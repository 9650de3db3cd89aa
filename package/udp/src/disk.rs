//! What a party keeps: one file in a folder of its own, replaced whole.
//!
//! A file is a mark (8 bytes), the content's length (8), its checksum (8) and the content, little-endian. New
//! content is written beside the old, brought to the disk and renamed over it, and then the folder is brought
//! to the disk; so after a kill or a loss of power the file is the old one or the new one, whole. A torn one
//! is found out and refused.

use crate::Result;
use std::fs::{self, File, OpenOptions, TryLockError};
use std::io::{Error, ErrorKind, Read, Write};
use std::path::{Path, PathBuf};

const MARK: &[u8; 8] = b"board 1\n";
const HEAD: usize = 24;
const MOST: u64 = 1 << 16;
const KEPT: &str = "kept";
const NEXT: &str = "kept.new";
const LOCK: &str = "lock";

/// A party's folder, open to this process alone.
#[derive(Debug)]
pub struct Folder {
    path: PathBuf,
    folder: File,
    _lock: File,
}

impl Folder {
    /// Opens a folder that is there, unless another process has it open.
    pub fn open(path: &Path) -> Result<Folder> {
        let folder = File::open(path).map_err(said(path))?;
        let lock_path = path.join(LOCK);
        let lock = OpenOptions::new().create(true).append(true).open(&lock_path).map_err(said(&lock_path))?;
        match lock.try_lock() {
            Ok(()) => Ok(Folder { path: path.to_path_buf(), folder, _lock: lock }),
            Err(TryLockError::WouldBlock) => Err(format!("{}: in use by another process", path.display())),
            Err(TryLockError::Error(why)) => Err(said(&lock_path)(why)),
        }
    }

    /// Keeps the content: once this returns, it is on the disk.
    pub fn keep(&self, content: &[u8]) -> Result<()> {
        let (next, kept) = (self.path.join(NEXT), self.path.join(KEPT));
        write_through(&next, &framed(content))?;
        fs::rename(&next, &kept).map_err(said(&kept))?;
        self.folder.sync_all().map_err(said(&self.path))
    }

    /// The content kept last. It is on the disk once this returns, even if the process that kept it was
    /// killed before it could see to that.
    pub fn kept(&self) -> Result<Vec<u8>> {
        let path = self.path.join(KEPT);
        let file = File::open(&path).map_err(said(&path))?;
        file.sync_all().map_err(said(&path))?;
        self.folder.sync_all().map_err(said(&self.path))?;
        let mut bytes = vec![];
        file.take(MOST).read_to_end(&mut bytes).map_err(said(&path))?;
        unframed(&bytes).map_err(|why| format!("{}: the file is broken: {why}", path.display()))
    }
}

/// Makes a party's folder with its first content. It is an error if it is there.
pub fn make(path: &Path, content: &[u8]) -> Result<()> {
    fs::create_dir(path).map_err(said(path))?;
    Folder::open(path)?.keep(content)
}

/// Makes a folder and fills it under another name, and gives it its own once it is whole. It is an error if
/// it is there.
pub fn make_whole(path: &Path, fill: impl FnOnce(&Path) -> Result<()>) -> Result<()> {
    let path: PathBuf = path.components().collect();
    let mut name = path.file_name().ok_or_else(|| format!("{}: no name", path.display()))?.to_os_string();
    if path.try_exists().map_err(said(&path))? {
        return Err(format!("{}: it is there already", path.display()));
    }
    name.push(format!(".new-{}", std::process::id()));
    let unfinished = path.with_file_name(name);
    fs::create_dir(&unfinished).map_err(said(&unfinished))?;
    fill(&unfinished)?;
    sync_folder(&unfinished)?;
    fs::rename(&unfinished, &path).map_err(said(&path))?;
    sync_around(&path)
}

/// Removes a file for good, if it is there.
pub fn remove(path: &Path) -> Result<()> {
    match fs::remove_file(path) {
        Err(why) if why.kind() == ErrorKind::NotFound => Ok(()),
        Err(why) => Err(said(path)(why)),
        Ok(()) => sync_around(path),
    }
}

/// Writes a file and brings it to the disk.
pub fn write_through(path: &Path, bytes: &[u8]) -> Result<()> {
    let mut file = File::create(path).map_err(said(path))?;
    file.write_all(bytes).and_then(|()| file.sync_all()).map_err(said(path))
}

/// The checksum of some bytes, by 64-bit FNV-1a. Of equal lengths, a change in one byte changes it.
pub fn checksum(bytes: &[u8]) -> u64 {
    let step = |sum: u64, byte: &u8| (sum ^ u64::from(*byte)).wrapping_mul(0x100_0000_01b3);
    bytes.iter().fold(0xcbf2_9ce4_8422_2325, step)
}

/// A file's trouble, in words.
pub fn said(path: &Path) -> impl Fn(Error) -> String + '_ {
    move |why| format!("{}: {why}", path.display())
}

/// Brings the folder that something is in to the disk.
fn sync_around(path: &Path) -> Result<()> {
    match path.parent() {
        Some(parent) if parent != Path::new("") => sync_folder(parent),
        _ => sync_folder(Path::new(".")),
    }
}

fn sync_folder(path: &Path) -> Result<()> {
    File::open(path).and_then(|folder| folder.sync_all()).map_err(said(path))
}

fn framed(content: &[u8]) -> Vec<u8> {
    let length = content.len() as u64;
    [MARK, &length.to_le_bytes()[..], &checksum(content).to_le_bytes(), content].concat()
}

fn unframed(bytes: &[u8]) -> Result<Vec<u8>> {
    let (head, content) = bytes.split_at_checked(HEAD).ok_or("it is too short")?;
    let expected = framed(content);
    match () {
        () if head[..8] != expected[..8] => Err("it is not a board's file".to_string()),
        () if head[8..16] != expected[8..16] => Err("it has a wrong length".to_string()),
        () if head != &expected[..HEAD] => Err("its checksum is wrong".to_string()),
        () => Ok(content.to_vec()),
    }
}

#[cfg(test)]
mod tests {
    use super::*;

    #[test]
    fn a_torn_frame_is_found_out() {
        let whole = framed(b"content");
        assert_eq!(unframed(&whole), Ok(b"content".to_vec()));
        for length in 0..whole.len() {
            assert!(unframed(&whole[..length]).is_err(), "{length}");
        }
        for place in 0..whole.len() {
            let mut wrong = whole.clone();
            wrong[place] ^= 0x40;
            assert!(unframed(&wrong).is_err(), "{place}");
        }
        assert!(unframed(&[&whole[..], &[0]].concat()).is_err());
    }
}

//! Reading and writing whole files; every failure names its file.

use crate::report::Failure;
use std::fs::{self, File, OpenOptions};
use std::io::{self, Read, Write};
use std::path::{Path, PathBuf};

pub fn read(path: impl AsRef<Path>) -> Result<Vec<u8>, Failure> {
    fs::read(&path).map_err(|why| failure(path.as_ref(), &why))
}

pub fn read_text(path: impl AsRef<Path>) -> Result<String, Failure> {
    fs::read_to_string(&path).map_err(|why| failure(path.as_ref(), &why))
}

/// Reads a file into a lent buffer until a read gives 0, as it does where the buffer is full; answers the length.
pub fn read_into(path: impl AsRef<Path>, buffer: &mut [u8]) -> Result<usize, Failure> {
    let filled = File::open(&path).and_then(|file| fill_buffer(file, buffer));
    filled.map_err(|why| failure(path.as_ref(), &why))
}

fn fill_buffer(mut file: File, buffer: &mut [u8]) -> io::Result<usize> {
    let mut length = 0;
    loop {
        match file.read(&mut buffer[length..])? {
            0 => return Ok(length),
            more => length += more,
        }
    }
}

/// The same file, named from the root.
pub fn absolute(path: impl AsRef<Path>) -> Result<PathBuf, Failure> {
    fs::canonicalize(&path).map_err(|why| failure(path.as_ref(), &why))
}

/// A fresh folder among the temporary ones, removed with all in it when dropped.
pub struct Temporary(PathBuf);

impl Temporary {
    pub fn new(name: &str) -> Result<Temporary, Failure> {
        let path = absolute(std::env::temp_dir())?.join(format!("{name}.{}", std::process::id()));
        fs::create_dir(&path).map_err(|why| failure(&path, &why))?;
        Ok(Temporary(path))
    }

    pub fn path(&self) -> &Path {
        &self.0
    }
}

impl Drop for Temporary {
    fn drop(&mut self) {
        // What was found is worth more than a folder that stays.
        let _ = fs::remove_dir_all(&self.0);
    }
}

/// Writes all of a file or leaves it as it was.
pub fn write(path: impl AsRef<Path>, bytes: &[u8]) -> Result<(), Failure> {
    let path = path.as_ref();
    let written = match fs::metadata(path) {
        // A device or a pipe has no name to give away.
        Ok(found) if !found.is_file() => fs::write(path, bytes),
        // A link stays, and what it leads to is replaced.
        _ => replace(&fs::canonicalize(path).unwrap_or_else(|_| path.to_path_buf()), bytes),
    };
    written.map_err(|why| failure(path, &why))
}

fn failure(path: &Path, why: &io::Error) -> Failure {
    Failure::CouldNotRun(format!("{}: {why}", path.display()))
}

/// Writes beside the file and takes its name when all is written.
fn replace(path: &Path, bytes: &[u8]) -> io::Result<()> {
    let part = part_name(path);
    let mut file = OpenOptions::new().write(true).create_new(true).open(&part)?;
    let done = fill(&mut file, path, bytes).and_then(|()| fs::rename(&part, path));
    if done.is_err() {
        // The first failure is the one to tell.
        let _ = fs::remove_file(&part);
    }
    done
}

/// All bytes, and the rights of the file that stands there.
fn fill(file: &mut File, path: &Path, bytes: &[u8]) -> io::Result<()> {
    file.write_all(bytes)?;
    match fs::metadata(path) {
        Ok(found) => file.set_permissions(found.permissions()),
        Err(_) => Ok(()),
    }
}

/// A name of this process in the same folder.
fn part_name(path: &Path) -> PathBuf {
    let mut name = path.as_os_str().to_os_string();
    name.push(format!(".{}.part", std::process::id()));
    PathBuf::from(name)
}

//! Where a command writes: neither over a file that it reads, nor over one of another kind, unless it is told to.
use crate::failure::Failure;
use poqashem::{Params, Sheet, SHEET};
use std::fs::{canonicalize, metadata, File, OpenOptions};
use std::io::{Read, Write};
use std::path::Path;

/// What is written.
#[derive(Clone, Copy, Debug, PartialEq, Eq)]
pub enum Kind {
    /// A sheet's bytes.
    Sheet,
    /// A timeline, as SVG.
    Picture,
    /// A script that `differ` wrote.
    Script,
}

/// What a picture begins with.
const PICTURE: &[u8] = b"<svg";
/// What a script begins with that `differ` wrote.
pub const SCRIPT: &str = "# setter differ";

/// A file that a command writes.
#[derive(Clone, Copy, Debug)]
pub struct Output<'a> {
    pub path: &'a str,
    pub kind: Kind,
    /// Whatever is there.
    pub force: bool,
}

/// Whether two paths lead to one file, by whatever names and links.
fn same(a: &Path, b: &Path) -> bool {
    let paths = [a, b].map(canonicalize);
    matches!(&paths, [Ok(a), Ok(b)] if a == b) || linked(a, b)
}

#[cfg(unix)]
fn linked(a: &Path, b: &Path) -> bool {
    use std::os::unix::fs::MetadataExt;
    let places = [a, b].map(|path| metadata(path).map(|m| (m.dev(), m.ino())));
    matches!(places, [Ok(a), Ok(b)] if a == b)
}

#[cfg(not(unix))]
fn linked(_: &Path, _: &Path) -> bool {
    false
}

impl Kind {
    /// Whether a file's first bytes, more than a sheet can have if there are more, are of this kind: a sheet is one that
    /// compile takes, as what is written is.
    fn has(self, bytes: &[u8]) -> bool {
        match self {
            Kind::Sheet => Sheet::new(bytes).compile(Some(&Params::default())).is_ok(),
            Kind::Picture => bytes.is_empty() || bytes.starts_with(PICTURE),
            Kind::Script => bytes.is_empty() || bytes.starts_with(SCRIPT.as_bytes()),
        }
    }

    fn word(self) -> &'static str {
        match self {
            Kind::Sheet => "a sheet's bytes",
            Kind::Picture => "a picture (SVG)",
            Kind::Script => "a script that differ wrote",
        }
    }
}

impl Output<'_> {
    /// Before anything is done: whether it may be written by a command that reads these files.
    pub fn check<'b>(&self, mut inputs: impl Iterator<Item = &'b str>) -> Result<(), Failure> {
        let Output { path, kind, force } = *self;
        // something that is no file, such as /dev/null, is no one's work
        if force || !metadata(path).is_ok_and(|m| m.is_file()) {
            return Ok(());
        }
        let way = "name another file, or add --force";
        if let Some(input) = inputs.find(|input| same(Path::new(path), Path::new(input))) {
            let named = if input == path { String::new() } else { format!(" as {input}") };
            return Err(Failure::Usage(format!("{path} is read{named}, and would be written over: {way}")));
        }
        let mut there = vec![];
        let read = File::open(path).and_then(|file| file.take(SHEET as u64 + 1).read_to_end(&mut there));
        match read {
            Ok(_) if kind.has(&there) => Ok(()),
            Ok(_) => Err(Failure::Usage(format!("{path} is there and is not {}: {way}", kind.word()))),
            Err(e) => Err(Failure::Usage(format!("{path} is there and cannot be read: {e}; {way}"))),
        }
    }

    /// Writes the file whole or not at all.
    pub fn write(&self, bytes: &[u8]) -> Result<(), Failure> {
        let told = |e: std::io::Error| Failure::input(format!("{}: cannot be written: {e}", self.path));
        // something that is no file is written to as it is; a link stays one
        if metadata(self.path).is_ok_and(|m| !m.is_file()) {
            return std::fs::write(self.path, bytes).map_err(told);
        }
        let path = canonicalize(self.path).unwrap_or_else(|_| self.path.into());
        let mut beside = path.clone().into_os_string();
        beside.push(format!(".{}.part", std::process::id()));
        let mut file = OpenOptions::new().write(true).create_new(true).open(&beside).map_err(told)?;
        let done = file.write_all(bytes).and_then(|()| std::fs::rename(&beside, path));
        if done.is_err() {
            let _ = std::fs::remove_file(&beside);
        }
        done.map_err(told)
    }
}

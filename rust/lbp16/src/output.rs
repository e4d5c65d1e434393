//! Files that are written beside their place and then renamed, so that the old file stays whole until the new one is.

use crate::ending::{lost, Stop};
use std::ffi::{OsStr, OsString};
use std::fs::{self, File, OpenOptions};
use std::io::{self, Write};
use std::path::{Path, PathBuf};
use std::process;

/// A file that is being written.
pub struct Output {
    name: String,
    file: File,
    /// Where the bytes stand until they are all there, and the place that they are for.
    places: Option<(PathBuf, PathBuf)>,
}

impl Output {
    /// Begins a file. What is no plain file, as /dev/null or a pipe, is written as it stands.
    pub fn begin(file: &OsStr) -> Result<Output, Stop> {
        let name = file.display().to_string();
        begun(Path::new(file))
            .map(|(file, places)| Output {
                name: name.clone(),
                file,
                places,
            })
            .map_err(|error| lost(&name, &error))
    }

    pub fn put(&mut self, bytes: &[u8]) -> Result<(), Stop> {
        let put = self.file.write_all(bytes);
        put.map_err(|error| lost(&self.name, &error))
    }

    /// The file stands in its place, or the old one does.
    pub fn end(mut self) -> Result<(), Stop> {
        let Some((beside, place)) = &self.places else {
            return Ok(());
        };
        let moved = self
            .file
            .sync_all()
            .and_then(|()| fs::rename(beside, place));
        if let Err(error) = moved {
            return Err(lost(&self.name, &error));
        }
        // The file has its name; that the name lasts is the folder's doing.
        if let Some(folder) = place.parent() {
            let folder = if folder.as_os_str().is_empty() {
                Path::new(".")
            } else {
                folder
            };
            let _ = File::open(folder).and_then(|folder| folder.sync_all());
        }
        self.places = None;
        Ok(())
    }
}

impl Drop for Output {
    /// What was not brought to its end leaves nothing behind.
    fn drop(&mut self) {
        if let Some((beside, _)) = &self.places {
            let _ = fs::remove_file(beside);
        }
    }
}

type Begun = (File, Option<(PathBuf, PathBuf)>);

fn begun(file: &Path) -> io::Result<Begun> {
    // A link stays one: the file that it leads to is written anew.
    let place = fs::canonicalize(file).unwrap_or(file.to_path_buf());
    match fs::metadata(&place) {
        Ok(old) if old.is_file() => {
            let (new, places) = beside(&place)?;
            if let Err(error) = new.set_permissions(old.permissions()) {
                let _ = fs::remove_file(&places.0);
                return Err(error);
            }
            Ok((new, Some(places)))
        }
        Ok(_) => Ok((OpenOptions::new().write(true).open(&place)?, None)),
        Err(_) => beside(&place).map(|(new, places)| (new, Some(places))),
    }
}

fn beside(place: &Path) -> io::Result<(File, (PathBuf, PathBuf))> {
    let Some(name) = place.file_name() else {
        return Err(io::Error::other("not the name of a file"));
    };
    let mut hidden = OsString::from(".");
    hidden.push(name);
    hidden.push(format!(".{}", process::id()));
    let beside = place.with_file_name(hidden);
    let file = OpenOptions::new()
        .write(true)
        .create_new(true)
        .open(&beside)?;
    Ok((file, (beside, place.to_path_buf())))
}

/// A whole file at once.
pub fn write(file: &OsStr, bytes: &[u8]) -> Result<(), Stop> {
    let mut output = Output::begin(file)?;
    output.put(bytes)?;
    output.end()
}

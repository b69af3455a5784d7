//! An image: a file, or a block device, that holds a medium. Its parts are loaded when they are needed, and written in place.

use std::fs::{self, File, OpenOptions};
use std::io::{self, Seek, SeekFrom};
use std::os::unix::fs::{FileExt, FileTypeExt};
use std::path::Path;

use blackboxlog::{Error, Log, Numbers, Operation, Reader, Step};

use crate::failure::{refused, Failure};
use crate::format::{HEADERS_END, RING};
use crate::lock::{lock, unlock, Lock};
use crate::progress::Progress;
use crate::space::Space;

/// How much is read or written at once.
pub const CHUNK: usize = 1 << 20;

pub struct Image {
    file: File,
    name: String,
    space: Space,
}

impl Image {
    /// Opens an image and loads its selector and headers.
    pub fn open(path: &Path, write: bool) -> Result<Image, Failure> {
        let name = path.display().to_string();
        check_kind(path, &name)?;
        let mut file = match OpenOptions::new().read(true).write(write).open(path) {
            Ok(file) => file,
            Err(error) => return refused(format!("{}: {}", name, error)),
        };
        take(&file, &name, Lock::ToRead)?;
        let length = length_of(&mut file, &name)?;
        Image::of(file, name, length)
    }

    /// The image in a file that is locked.
    fn of(file: File, name: String, length: u64) -> Result<Image, Failure> {
        let space = space_for(length)?;
        let mut image = Image { file, name, space };
        image.load_front()?;
        Ok(image)
    }

    fn load_front(&mut self) -> Result<(), Failure> {
        self.load(0, self.length().min(HEADERS_END), &mut Progress::new("read", None))
    }

    pub fn name(&self) -> &str {
        &self.name
    }

    pub fn medium(&self) -> &[u8] {
        self.space.as_ref()
    }

    pub fn length(&self) -> u64 {
        self.medium().len() as u64
    }

    pub fn reader(&self) -> Result<Reader<'_>, Error> {
        Reader::open(self.medium())
    }

    /// Loads a run of bytes of the file.
    fn load(&mut self, at: u64, length: u64, progress: &mut Progress) -> Result<(), Failure> {
        let run = &mut self.space.as_mut()[at as usize..(at + length) as usize];
        let mut done = 0;
        for part in run.chunks_mut(CHUNK) {
            if let Err(error) = self.file.read_exact_at(part, at + done) {
                return refused(format!("{}: {} bytes at {}: {}", self.name, part.len(), at + done, error));
            }
            done += part.len() as u64;
            progress.at(done);
        }
        Ok(())
    }

    /// Loads the ring's bytes at a run of positions that the log keeps: two runs of the file, if it passes the ring's end.
    pub fn load_positions(&mut self, numbers: Numbers, position: u64, length: u64) -> Result<(), Failure> {
        let size = numbers.capacity + 1;
        let place = position % size;
        let first = length.min(size - place);
        let mut progress = Progress::new("read", Some(length));
        self.load(RING + place, first, &mut progress)?;
        self.load(RING, length - first, &mut progress)
    }

    /// The log on this image, to be changed by this program alone. What a program before this one wrote is synced first: that program may have
    /// been ended between a write and its sync.
    pub fn into_log(mut self) -> Result<(Log<Space>, Disk), Failure> {
        self.release();
        take(&self.file, &self.name, Lock::ToWrite)?;
        if length_of(&mut self.file, &self.name)? != self.length() {
            return refused(format!("{}: its length has changed", self.name));
        }
        self.file.sync_data().or_else(|error| refused(format!("{}: {}", self.name, error)))?;
        self.load_front()?;
        let mut log = Log::on(self.space);
        log.reopen().or_else(|error| refused(format!("{}: {}", self.name, error)))?;
        Ok((log, Disk { file: self.file, name: self.name }))
    }

    /// Lets other programs write. What is loaded stays as it is.
    pub fn release(&self) {
        unlock(&self.file);
    }
}

/// Where an image is written.
pub struct Disk {
    file: File,
    name: String,
}

impl Disk {
    /// Opens a file for an image of so many bytes, or makes it. What stands in it stays, up to that length. `look` may refuse what is there: it
    /// looks when no other program can change it any more.
    pub fn make(path: &Path, length: u64, look: impl Fn(&Image) -> Result<(), Failure>) -> Result<Disk, Failure> {
        let name = path.display().to_string();
        let named = |error: io::Error| Failure::Refused(format!("{}: {}", name, error));
        let mut file =
            OpenOptions::new().read(true).write(true).create(true).truncate(false).open(path).map_err(named)?;
        take(&file, &name, Lock::ToWrite)?;
        let found = length_of(&mut file, &name)?;
        look(&Image::of(file.try_clone().map_err(named)?, name.clone(), found)?)?;
        if file.metadata().map_err(named)?.is_file() {
            file.set_len(length).and_then(|()| file.sync_all()).map_err(named)?;
        } else if found != length {
            return refused(format!("{}: it has {} bytes, and its length can't be changed", name, found));
        }
        Ok(Disk { file, name })
    }

    /// Carries out an operation: each step's bytes are written in place, and where the plan has a flush the file is synced.
    pub fn carry_out(&self, mut operation: Operation<'_>) -> Result<u64, Failure> {
        let mut progress = Progress::new("written", None);
        while let Some(step) = operation.step()? {
            let done = match step {
                Step::Written { at, bytes } => self.write(at as u64, bytes, &mut progress),
                Step::Flush => self.file.sync_data(),
            };
            if let Err(error) = done {
                return refused(format!("{}: {}; the image is as after a power cut", self.name, error));
            }
        }
        Ok(operation.answer()?)
    }

    fn write(&self, at: u64, bytes: &[u8], progress: &mut Progress) -> io::Result<()> {
        let mut done = 0;
        for part in bytes.chunks(CHUNK) {
            self.file.write_all_at(part, at + done)?;
            done += part.len() as u64;
            progress.at(done);
        }
        Ok(())
    }
}

const IN_USE: &str = "another program has it";

fn take(file: &File, name: &str, what: Lock) -> Result<(), Failure> {
    if lock(file, what) {
        Ok(())
    } else {
        refused(format!("{}: {}", name, IN_USE))
    }
}

/// Memory for a medium of so many bytes.
pub fn space_for(length: u64) -> Result<Space, Failure> {
    Space::new(length).ok_or_else(|| Error::NoMemory { bytes: length }.into())
}

/// Whether there is something at a path; if so, it must be a file or a block device.
pub fn is_there(path: &Path) -> Result<bool, Failure> {
    match fs::symlink_metadata(path) {
        Err(error) if error.kind() == io::ErrorKind::NotFound => Ok(false),
        _ => check_kind(path, &path.display().to_string()).map(|()| true),
    }
}

fn check_kind(path: &Path, name: &str) -> Result<(), Failure> {
    match fs::metadata(path) {
        Ok(about) if about.is_dir() => refused(format!("{}: it is a folder", name)),
        Ok(about) if !about.is_file() && !about.file_type().is_block_device() => {
            refused(format!("{}: it is neither a file nor a block device", name))
        }
        Ok(_) => Ok(()),
        Err(error) => refused(format!("{}: {}", name, error)),
    }
}

fn length_of(file: &mut File, name: &str) -> Result<u64, Failure> {
    file.seek(SeekFrom::End(0)).or_else(|error| refused(format!("{}: {}", name, error)))
}

//! The pid file says which process serves: its number, in a file that this process has locked.
//!
//! The lock is the identity. The kernel lets it go when the process ends, however it ends, so a number
//! that was given to another process since is never taken for the server's. A server that was stopped
//! removes its file; one that died leaves it behind, unlocked.

use std::ffi::OsStr;
use std::fs::{self, File, OpenOptions, TryLockError};
use std::io::{self, Read, Write};
use std::os::unix::fs::{FileExt, MetadataExt, OpenOptionsExt};
use std::path::{Path, PathBuf};
use std::process;
use std::thread;
use std::time::{Duration, Instant};

/// How long a path that another program changes is waited for.
const PATIENCE: Duration = Duration::from_secs(5);

/// What a path leads to: the device and the number of the file.
#[derive(Clone, Copy, Debug, PartialEq, Eq)]
pub(crate) struct FileId(u64, u64);

impl FileId {
    pub(crate) fn of(metadata: &fs::Metadata) -> FileId {
        FileId(metadata.dev(), metadata.ino())
    }

    pub(crate) fn at(path: &Path) -> Option<FileId> {
        fs::symlink_metadata(path).ok().map(|metadata| FileId::of(&metadata))
    }
}

/// The path with an ending.
pub(crate) fn with_ending(path: &Path, ending: &str) -> PathBuf {
    let mut path = path.as_os_str().to_owned();
    path.push(ending);
    PathBuf::from(path)
}

/// What stands at a path is changed by no other server as long as this lives: by a locked file beside it, with the ending
/// `.lock`. Who may open a file may lock it, so that file is the user's alone, and the pid file is, too.
#[derive(Debug)]
pub(crate) struct PathLock {
    beside: PathBuf,
    /// The file is there for the next one.
    stays: bool,
    /// Its lock goes with it.
    _locked: File,
}

impl PathLock {
    /// Waits for another server that changes it, for a short while. The file goes with the value.
    pub(crate) fn take(path: &Path) -> io::Result<PathLock> {
        let beside = with_ending(path, ".lock");
        let end = Instant::now() + PATIENCE;
        loop {
            let mut options = OpenOptions::new();
            let file =
                options.write(true).create(true).truncate(false).mode(0o600).open(&beside)?;
            match file.try_lock() {
                // Who had it before has removed it: the next one makes another.
                Ok(()) if FileId::at(&beside) != Some(FileId::of(&file.metadata()?)) => {}
                Ok(()) => return Ok(PathLock { beside, stays: false, _locked: file }),
                Err(TryLockError::WouldBlock) if Instant::now() < end => {
                    thread::sleep(Duration::from_millis(5));
                }
                Err(error) => return Err(error.into()),
            }
        }
    }

    /// The same, whose file stays: the next one to take it wants no room on the disk.
    pub(crate) fn take_and_keep(path: &Path) -> io::Result<PathLock> {
        let mut lock = PathLock::take(path)?;
        lock.stays = true;
        Ok(lock)
    }
}

impl Drop for PathLock {
    fn drop(&mut self) {
        if !self.stays {
            // Where it can't be removed, the next server locks the same.
            _ = fs::remove_file(&self.beside);
        }
    }
}

/// Who serves by the pid file.
#[derive(Debug)]
pub(crate) enum Holder {
    /// There is no file: nobody has served, or who did was stopped.
    Absent,
    /// Who wrote the file has ended without removing it. It is locked for the caller now.
    Gone(File, Option<u32>),
    /// This process serves.
    Serves(Option<u32>),
}

/// Who serves by the pid file at the path.
///
/// # Errors
///
/// What opening the file or its lock says.
pub(crate) fn holder(path: &Path) -> io::Result<Holder> {
    let mut file = match File::open(path) {
        Ok(file) => file,
        Err(error) if error.kind() == io::ErrorKind::NotFound => return Ok(Holder::Absent),
        Err(error) => return Err(error),
    };
    let mut text = String::new();
    let is_read = Read::by_ref(&mut file).take(32).read_to_string(&mut text);
    let pid = is_read.ok().and_then(|_| text.trim().parse().ok());
    match file.try_lock() {
        Ok(()) => Ok(Holder::Gone(file, pid)),
        Err(TryLockError::WouldBlock) => Ok(Holder::Serves(pid)),
        Err(TryLockError::Error(error)) => Err(error),
    }
}

/// The next pid file, beside the path at which it is to stand: a locked file with this process's number. All room that
/// it wants on the disk it has. It goes with the value, unless it was put.
#[derive(Debug)]
pub(crate) struct NextPidFile {
    beside: PathBuf,
    locked: Option<File>,
}

/// Removes the next pid files of processes that have died. The path is to be locked.
fn remove_left(path: &Path) {
    let (Some(folder), Some(name)) = (path.parent(), path.file_name().and_then(OsStr::to_str))
    else {
        return;
    };
    let folder = if folder.as_os_str().is_empty() { Path::new(".") } else { folder };
    for entry in fs::read_dir(folder).into_iter().flatten().flatten() {
        let file_name = entry.file_name();
        let ending = file_name.to_str().and_then(|it| it.strip_prefix(name)?.strip_prefix('.'));
        let Some(number) = ending.filter(|it| it.bytes().all(|byte| byte.is_ascii_digit())) else {
            continue;
        };
        // A file of another kind, or of somebody else, has no such text.
        let is_file = entry.file_type().is_ok_and(|kind| kind.is_file());
        if is_file
            && let Ok(Holder::Gone(_locked, Some(written))) = holder(&entry.path())
            && written.to_string() == number
        {
            _ = fs::remove_file(entry.path());
        }
    }
}

impl NextPidFile {
    /// Makes it. The path is to be locked.
    ///
    /// # Errors
    ///
    /// What the system says: that the disk is full, say.
    pub(crate) fn make(path: &Path) -> io::Result<NextPidFile> {
        remove_left(path);
        let beside = with_ending(path, &format!(".{}", process::id()));
        // What a process of this number left behind.
        _ = fs::remove_file(&beside);
        let mut file = OpenOptions::new().write(true).create_new(true).mode(0o600).open(&beside)?;
        let mut made = NextPidFile { beside, locked: None };
        file.try_lock()?;
        writeln!(file, "{}", process::id())?;
        file.sync_all()?;
        made.locked = Some(file);
        Ok(made)
    }

    /// Puts it at the path, in place of what stands there.
    fn put(mut self, path: &Path) -> io::Result<PidFile> {
        let locked = self.locked.take().ok_or(io::ErrorKind::NotFound)?;
        let id = FileId::of(&locked.metadata()?);
        fs::rename(&self.beside, path)?;
        Ok(PidFile { path: path.to_owned(), id, _locked: locked })
    }
}

impl Drop for NextPidFile {
    fn drop(&mut self) {
        // Where it was put, nothing stands there any more.
        _ = fs::remove_file(&self.beside);
    }
}

/// The pid file of this process, locked as long as this value lives.
#[derive(Debug)]
pub(crate) struct PidFile {
    path: PathBuf,
    id: FileId,
    /// Its lock goes with it.
    _locked: File,
}

impl PidFile {
    /// Puts a file of this process at the path, in place of what stands there. It was written beside it
    /// first, so a reader finds a whole one at each moment. The path is to be locked.
    ///
    /// Where no other file can be made, as on a full disk, this process's number is written over that in the file
    /// that a process left which has ended (`Holder::Gone`).
    pub(crate) fn put(
        path: &Path,
        next: io::Result<NextPidFile>,
        left: Option<File>,
    ) -> io::Result<PidFile> {
        next.and_then(|next| next.put(path)).or_else(|error| match left {
            Some(left) => PidFile::write_over(path, left).map_err(|_| error),
            None => Err(error),
        })
    }

    /// Makes the file that is left, and that is locked, this process's. It wants no more room than it has.
    fn write_over(path: &Path, left: File) -> io::Result<PidFile> {
        let file = OpenOptions::new().write(true).open(path)?;
        let metadata = file.metadata()?;
        let id = FileId::of(&metadata);
        if FileId::of(&left.metadata()?) != id {
            return Err(io::ErrorKind::NotFound.into());
        }
        let mut text = format!("{}\n", process::id());
        let length = text.len() as u64;
        // A reader finds one of the two numbers, and empty lines behind it at most.
        let empty = metadata.len().saturating_sub(length).min(32);
        text.extend((0..empty).map(|_| '\n'));
        file.write_all_at(text.as_bytes(), 0)?;
        file.set_len(length)?;
        Ok(PidFile { path: path.to_owned(), id, _locked: left })
    }

    /// Whether it stands at its path still.
    pub(crate) fn is_in_place(&self) -> bool {
        FileId::at(&self.path) == Some(self.id)
    }

    /// Removes it, where it stands at its path still, and the path's lock.
    pub(crate) fn remove(self) {
        let lock = PathLock::take(&self.path);
        if self.is_in_place() {
            // Where it is gone already, that is as well.
            _ = fs::remove_file(&self.path);
        }
        drop(lock);
    }
}

#[cfg(test)]
mod tests {
    use super::*;
    use std::env;
    use std::os::unix::fs::PermissionsExt;
    use std::sync::atomic::{AtomicU32, Ordering};

    fn folder(name: &str) -> PathBuf {
        let folder = env::temp_dir().join(format!("fulltimehen-{name}-{}", process::id()));
        fs::create_dir_all(&folder).unwrap();
        folder
    }

    /// One at a time has a path, also while each removes what it was locked by; nobody else may open that.
    #[test]
    fn one_at_a_time_has_a_path() {
        let folder = folder("path");
        let (path, lock) = (folder.join("pid"), folder.join("pid.lock"));
        let inside = AtomicU32::new(0);
        thread::scope(|scope| {
            for _ in 0..4 {
                scope.spawn(|| {
                    for _ in 0..50 {
                        // One that waits for its turn for too long tries again.
                        let own = (0..100).find_map(|_| PathLock::take(&path).ok()).unwrap();
                        assert_eq!(inside.fetch_add(1, Ordering::SeqCst), 0);
                        let mode = fs::metadata(&lock).unwrap().permissions().mode();
                        assert_eq!(mode & 0o777, 0o600);
                        inside.fetch_sub(1, Ordering::SeqCst);
                        drop(own);
                    }
                });
            }
        });
        assert!(!lock.exists());
        fs::remove_dir_all(folder).unwrap();
    }

    /// One puts a file of its own.
    fn put(path: &Path, left: Option<File>) -> io::Result<PidFile> {
        PidFile::put(path, NextPidFile::make(path), left)
    }

    #[test]
    fn who_holds_the_lock_serves() {
        let folder = folder("pid");
        let path = folder.join("pid");
        assert!(matches!(holder(&path), Ok(Holder::Absent)));
        fs::write(&path, "1\n").unwrap();
        // The process 1 lives, and isn't the server: the file isn't locked.
        assert!(matches!(holder(&path), Ok(Holder::Gone(_, Some(1)))));
        let before = File::open(&path).unwrap();
        let own = put(&path, None).unwrap();
        // Who reads meanwhile reads a whole file.
        assert_eq!(io::read_to_string(before).unwrap(), "1\n");
        let number = fs::read_to_string(&path).unwrap();
        assert_eq!(number, format!("{}\n", process::id()));
        assert!(matches!(holder(&path), Ok(Holder::Serves(Some(pid))) if pid == process::id()));
        let next = put(&path, None).unwrap();
        assert!(!own.is_in_place() && next.is_in_place());
        own.remove();
        assert!(path.exists());
        next.remove();
        assert!(matches!(holder(&path), Ok(Holder::Absent)));
        fs::remove_dir_all(folder).unwrap();
    }

    /// A next pid file has its room before it is put, and goes with its value; those of processes that have died go, and no other file.
    #[test]
    fn the_next_file_is_there_before() {
        let folder = folder("next");
        let (path, own) = (folder.join("pid"), format!("pid.{}", process::id()));
        fs::write(folder.join("pid.4194305"), "4194305\n").unwrap();
        let strangers = ["pid.1", "pid.7.old", "pid.x", "other.2"];
        for (name, text) in strangers.iter().zip(["2\n", "7\n", "x\n", "2\n"]) {
            fs::write(folder.join(name), text).unwrap();
        }
        let names = || {
            let entries = fs::read_dir(&folder).unwrap();
            let mut names: Vec<_> =
                entries.map(|it| it.unwrap().file_name().into_string().unwrap()).collect();
            names.sort();
            names
        };
        let with = |more: &str| {
            let mut names: Vec<_> = strangers.map(str::to_owned).into();
            names.extend((!more.is_empty()).then(|| more.to_owned()));
            names.sort();
            names
        };
        let next = NextPidFile::make(&path).unwrap();
        assert_eq!(names(), with(&own));
        // Another process sees that it lives.
        remove_left(&path);
        assert_eq!(names(), with(&own));
        drop(next);
        assert_eq!(names(), with(""));
        let stands = put(&path, None).unwrap();
        assert_eq!(names(), with("pid"));
        drop(PathLock::take_and_keep(&path).unwrap());
        assert!(folder.join("pid.lock").exists());
        stands.remove();
        assert_eq!(names(), with(""));
        fs::remove_dir_all(folder).unwrap();
    }

    /// Where no file can be made beside it, one that is left gets the number, and one that another process has locked doesn't.
    #[test]
    fn a_file_that_is_left_is_taken_where_none_can_be_made() {
        let folder = folder("left");
        let path = folder.join("pid");
        fs::create_dir(with_ending(&path, &format!(".{}", process::id()))).unwrap();
        assert!(put(&path, None).is_err());
        for before in ["1\n", "123456789\n"] {
            fs::write(&path, before).unwrap();
            assert!(put(&path, None).is_err());
            let Ok(Holder::Gone(left, _)) = holder(&path) else { panic!("nobody has locked it") };
            let own = put(&path, Some(left)).unwrap();
            assert_eq!(fs::read_to_string(&path).unwrap(), format!("{}\n", process::id()));
            assert!(own.is_in_place());
            assert!(matches!(holder(&path), Ok(Holder::Serves(Some(pid))) if pid == process::id()));
            drop(own);
        }
        // Another one stands there meanwhile.
        let Ok(Holder::Gone(left, _)) = holder(&path) else { panic!("nobody has locked it") };
        fs::remove_file(&path).unwrap();
        fs::write(&path, "2\n").unwrap();
        assert!(put(&path, Some(left)).is_err());
        assert_eq!(fs::read_to_string(&path).unwrap(), "2\n");
        fs::remove_dir_all(folder).unwrap();
    }
}

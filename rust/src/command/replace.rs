//! Files that are replaced as a whole: an old file stays complete until the new one is on the disk, and nothing else is left behind.

use crate::stop::Stop;
use std::fs::{self, File, Metadata};
use std::io::{self, Write};
use std::os::unix::fs::{MetadataExt, OpenOptionsExt, fchown};
use std::path::{Path, PathBuf};
use std::time::SystemTime;
use tailboardy_sys::signals::{came, held};

/// The steps of a replacement. In tests they fail, or the program is stopped between them.
trait Disk {
    fn write(&self, part: &mut File, bytes: &[u8]) -> io::Result<()> {
        part.write_all(bytes)
    }

    fn sync(&self, file: &File) -> io::Result<()> {
        file.sync_all()
    }

    fn rename(&self, part: &Path, file: &Path) -> io::Result<()> {
        fs::rename(part, file)
    }
}

struct Real;

impl Disk for Real {}

/// Checks, before any work is done, that the file that an option names can be written there.
pub fn place_for(option: &str, file: &str) -> Result<(), Stop> {
    let path = Path::new(file);
    let refused = |why: &str| Err(Stop::refused(&format!("{file:?}"), why));
    if path.is_dir() {
        return refused("it is a folder; name a file in it");
    }
    if path.file_name().is_none() || file.ends_with('/') {
        return refused("it is not the name of a file");
    }
    if !folder_of(path).is_dir() {
        return Err(Stop::refused(
            file,
            "there is no such folder; create it, or choose another one",
        ));
    }
    let tried = match fs::metadata(path) {
        Ok(it) if !it.is_file() => return Ok(()),
        Ok(_) => File::options().append(true).open(path).map(|_| ()),
        Err(_) if path.is_symlink() => {
            return refused(
                "it is a link to a file that does not exist; remove the link, or create the file",
            );
        }
        Err(_) => Ok(()),
    };
    let tried = tried.and_then(|()| {
        held(|| {
            let part = part_in(folder_of(&real(path)));
            File::create_new(&part).and_then(|_| fs::remove_file(&part))
        })
    });
    tried.map_err(|error| Stop::unwritten(option, file, &error))
}

/// Writes a file. A pipe or a device is written directly.
pub fn write(file: &str, bytes: &[u8]) -> io::Result<()> {
    let file = real(Path::new(file));
    match fs::metadata(&file) {
        Ok(it) if !it.is_file() => File::options().write(true).open(&file)?.write_all(bytes),
        _ => replace(&Real, &file, bytes),
    }
}

/// Writes a temporary file in the same folder, and renames it once it is on the disk. A signal that would end the program has to wait
/// meanwhile, so that the temporary file is either renamed or, if the signal came in time, removed.
fn replace(disk: &impl Disk, file: &Path, bytes: &[u8]) -> io::Result<()> {
    let part = part_in(folder_of(file));
    held(|| {
        let written = fill(disk, &part, file, bytes).and_then(|()| disk.rename(&part, file));
        if written.is_err() {
            let _ = fs::remove_file(&part);
        }
        written.and_then(|()| sync_folder(disk, folder_of(file)))
    })
}

fn fill(disk: &impl Disk, part: &Path, file: &Path, bytes: &[u8]) -> io::Result<()> {
    let old = fs::metadata(file).ok();
    let mode = old.as_ref().map_or(0o666, |old| old.mode() & 0o777);
    let mut made = File::options();
    let mut made = made.write(true).create_new(true).mode(mode).open(part)?;
    if let Some(old) = old {
        keep(&made, &old)?;
    }
    disk.write(&mut made, bytes)?;
    disk.sync(&made)?;
    match came() {
        true => Err(io::ErrorKind::Interrupted.into()),
        false => Ok(()),
    }
}

/// Gives the new file the mode of the old one, and its owner and group if the user may do that.
fn keep(made: &File, old: &Metadata) -> io::Result<()> {
    let own = made.metadata()?;
    if (own.uid(), own.gid()) != (old.uid(), old.gid()) {
        let _ = fchown(made, Some(old.uid()), Some(old.gid()));
    }
    made.set_permissions(old.permissions())
}

/// Makes the new name last too. The file itself is on the disk already, so it is no error if a file system cannot do this for a folder,
/// or if the user may not open the folder.
fn sync_folder(disk: &impl Disk, folder: &Path) -> io::Result<()> {
    match File::open(folder).and_then(|folder| disk.sync(&folder)) {
        Err(error) => match error.kind() {
            io::ErrorKind::InvalidInput
            | io::ErrorKind::Unsupported
            | io::ErrorKind::PermissionDenied => Ok(()),
            _ => Err(error),
        },
        Ok(()) => Ok(()),
    }
}

/// The file itself, if the path has links.
fn real(path: &Path) -> PathBuf {
    fs::canonicalize(path).unwrap_or_else(|_| path.to_owned())
}

fn folder_of(path: &Path) -> &Path {
    let folder = path.parent().filter(|it| !it.as_os_str().is_empty());
    folder.unwrap_or(Path::new("."))
}

/// A name that no other file has.
fn part_in(folder: &Path) -> PathBuf {
    let time = SystemTime::now().duration_since(SystemTime::UNIX_EPOCH);
    let time = time.unwrap_or_default().as_nanos();
    folder.join(format!(".tailboardy.{}.{time}.part", std::process::id()))
}

/// Whether two names refer to the same file.
pub fn same_file(one: &str, other: &str) -> bool {
    match (fs::canonicalize(one), fs::canonicalize(other)) {
        (Ok(one), Ok(other)) => one == other,
        _ => false,
    }
}

#[cfg(test)]
mod tests {
    use super::*;
    use std::cell::RefCell;
    use std::os::unix::fs::PermissionsExt;
    use std::os::unix::process::ExitStatusExt;
    use std::process::Command;
    use std::time::{Duration, Instant};

    /// A folder that is removed after the test.
    struct Folder(PathBuf);

    impl Folder {
        fn new() -> Self {
            let folder = part_in(&std::env::temp_dir()).with_extension("test");
            fs::create_dir(&folder).unwrap();
            Folder(folder)
        }

        /// The names of its files and what is in them.
        fn files(&self) -> Vec<(String, String)> {
            let entries = fs::read_dir(&self.0).unwrap().map(|it| it.unwrap());
            let file = |it: fs::DirEntry| {
                let name = it.file_name().into_string().unwrap();
                (name, fs::read_to_string(it.path()).unwrap())
            };
            entries.map(file).collect()
        }
    }

    impl Drop for Folder {
        fn drop(&mut self) {
            let _ = fs::remove_dir_all(&self.0);
        }
    }

    fn only(name: &str, text: &str) -> Vec<(String, String)> {
        vec![(name.to_owned(), text.to_owned())]
    }

    /// A disk that notes its steps, and fails at one of them.
    #[derive(Default)]
    struct Watched {
        fails: Option<&'static str>,
        steps: RefCell<Vec<&'static str>>,
    }

    impl Watched {
        fn step(&self, step: &'static str) -> io::Result<()> {
            self.steps.borrow_mut().push(step);
            match self.fails {
                Some(fails) if fails == step => Err(io::ErrorKind::StorageFull.into()),
                _ => Ok(()),
            }
        }
    }

    impl Disk for Watched {
        fn write(&self, part: &mut File, bytes: &[u8]) -> io::Result<()> {
            part.write_all(&bytes[..bytes.len() / 2])?;
            self.step("write")?;
            part.write_all(&bytes[bytes.len() / 2..])
        }

        fn sync(&self, file: &File) -> io::Result<()> {
            let folder = file.metadata()?.is_dir();
            self.step(if folder { "sync folder" } else { "sync file" })
        }

        fn rename(&self, part: &Path, file: &Path) -> io::Result<()> {
            self.step("rename")?;
            fs::rename(part, file)
        }
    }

    #[test]
    fn a_file_is_on_the_disk_before_it_replaces_the_old_one() {
        let folder = Folder::new();
        let file = folder.0.join("out");
        let disk = Watched::default();
        replace(&disk, &file, b"new").unwrap();
        assert_eq!(folder.files(), only("out", "new"));
        let steps = ["write", "sync file", "rename", "sync folder"];
        assert_eq!(disk.steps.into_inner(), steps);
    }

    #[test]
    fn what_fails_leaves_the_old_file_and_nothing_else() {
        for fails in ["write", "sync file", "rename"] {
            let folder = Folder::new();
            let file = folder.0.join("out");
            fs::write(&file, "old").unwrap();
            let disk = Watched {
                fails: Some(fails),
                ..Watched::default()
            };
            let error = replace(&disk, &file, b"new").unwrap_err();
            assert_eq!(error.kind(), io::ErrorKind::StorageFull);
            assert_eq!(folder.files(), only("out", "old"), "{fails}");
        }
    }

    #[test]
    fn the_mode_and_links_are_kept() {
        let folder = Folder::new();
        let (file, link) = (folder.0.join("out"), folder.0.join("link"));
        fs::write(&file, "old").unwrap();
        std::os::unix::fs::symlink("out", &link).unwrap();
        for mode in [0o600, 0o640, 0o777] {
            fs::set_permissions(&file, fs::Permissions::from_mode(mode)).unwrap();
            write(link.to_str().unwrap(), b"new").unwrap();
            assert_eq!(fs::metadata(&file).unwrap().mode() & 0o7777, mode);
            assert_eq!(fs::read_to_string(&file).unwrap(), "new");
            assert!(link.is_symlink());
        }
    }

    /// A disk on which the program is asked to stop before the temporary file is renamed.
    struct Stopped;

    impl Disk for Stopped {
        fn sync(&self, file: &File) -> io::Result<()> {
            let own = std::process::id().to_string();
            assert!(Command::new("kill").arg(&own).status()?.success());
            let sent = Instant::now();
            while !came() && sent.elapsed() < Duration::from_secs(10) {
                std::thread::yield_now();
            }
            file.sync_all()
        }
    }

    const FOLDER: &str = "TAILBOARDY_STOPPED_IN";

    /// The test runs itself in another process, which is stopped.
    #[test]
    fn a_signal_leaves_no_part() {
        if let Some(folder) = std::env::var_os(FOLDER) {
            let _ = replace(&Stopped, &Path::new(&folder).join("out"), b"new");
            return;
        }
        let folder = Folder::new();
        fs::write(folder.0.join("out"), "old").unwrap();
        let program = std::env::current_exe().unwrap();
        let runner = std::env::var("TAILBOARDY_RUNNER").unwrap_or_default();
        let mut line: Vec<&str> = runner.split_whitespace().collect();
        line.push(program.to_str().unwrap());
        let mut child = Command::new(line[0]);
        child.args(&line[1..]);
        child.args(["--exact", "replace::tests::a_signal_leaves_no_part"]);
        let status = child.env(FOLDER, &folder.0).output().unwrap().status;
        assert_eq!(folder.files(), only("out", "old"));
        assert_eq!(status.signal(), Some(15), "{status}");
    }
}

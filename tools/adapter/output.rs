//! Outputs: standard output, and files that appear whole or not at all.
use crate::files::stream;
use std::fs::{self, File, OpenOptions, Permissions};
use std::io::{self, BufWriter, ErrorKind, Write};
use std::path::{Path, PathBuf};

/// Written in large pieces.
pub type StandardOutput = BufWriter<File>;

pub fn standard() -> io::Result<StandardOutput> {
    Ok(BufWriter::with_capacity(1 << 16, stream(&io::stdout())?))
}

pub fn print(text: &str) -> io::Result<()> {
    stream(&io::stdout())?.write_all(text.as_bytes())
}

/// As many links as Linux follows.
const MOST_LINKS: usize = 40;

/// Writes a file whole or not at all: beside it, and then renamed. A device or a pipe is written directly, for a rename would replace it.
pub fn write_whole(path: &Path, octets: &[u8]) -> io::Result<()> {
    let old = match fs::metadata(path) {
        Ok(metadata) if metadata.is_dir() => return Err(ErrorKind::IsADirectory.into()),
        Ok(metadata) if !metadata.is_file() => return OpenOptions::new().write(true).open(path)?.write_all(octets),
        Ok(metadata) if metadata.permissions().readonly() => return Err(io::Error::other("it is write-protected")),
        Ok(metadata) => Some(metadata.permissions()),
        Err(e) if e.kind() == ErrorKind::NotFound => None,
        Err(e) => return Err(e),
    };
    let path = behind_links(path)?;
    let mut temporary = Temporary::beside(&path)?;
    temporary.fill(octets, old)?;
    temporary.rename(&path)
}

/// The path that a symbolic link leads to, also where nothing is there yet, so that the link stays.
fn behind_links(path: &Path) -> io::Result<PathBuf> {
    let mut path = path.to_path_buf();
    for _ in 0..MOST_LINKS {
        match fs::symlink_metadata(&path) {
            Ok(metadata) if metadata.is_symlink() => path = folder(&path).join(fs::read_link(&path)?),
            _ => return Ok(path),
        }
    }
    Err(io::Error::other("too many symbolic links"))
}

fn folder(path: &Path) -> &Path {
    match path.parent() {
        Some(parent) if parent != Path::new("") => parent,
        _ => Path::new("."),
    }
}

/// A file under another name in the output's folder, removed unless it was renamed.
struct Temporary {
    file: File,
    path: PathBuf,
    renamed: bool,
}

impl Temporary {
    /// A new file of its own: never one that was there before. Its name is short, as the output's may be as long as names can be.
    fn beside(output: &Path) -> io::Result<Temporary> {
        let mut tried = 0;
        loop {
            let path = folder(output).join(format!(".adapter-{}-{tried}.tmp", std::process::id()));
            match OpenOptions::new().write(true).create_new(true).open(&path) {
                Ok(file) => return Ok(Temporary { file, path, renamed: false }),
                Err(e) if e.kind() == ErrorKind::AlreadyExists && tried < 1000 => tried += 1,
                Err(e) => return Err(e),
            }
        }
    }

    /// The permissions of the file that is replaced come before its octets, which may be private.
    fn fill(&mut self, octets: &[u8], permissions: Option<Permissions>) -> io::Result<()> {
        if let Some(permissions) = permissions {
            self.file.set_permissions(permissions)?;
        }
        self.file.write_all(octets)?;
        self.file.sync_all()
    }

    fn rename(mut self, output: &Path) -> io::Result<()> {
        fs::rename(&self.path, output)?;
        self.renamed = true;
        Ok(())
    }
}

impl Drop for Temporary {
    fn drop(&mut self) {
        if !self.renamed {
            let _ = fs::remove_file(&self.path);
        }
    }
}

//! Files as a command reads and writes them; what fails is said with the file's name.
use crate::failure::Failure;
use std::fs::File;
use std::io::{self, BufWriter, Write};
use std::path::Path;
use thiserror::Error;

/// A failure of a file, with its name first.
pub fn failed(path: &Path, what: impl std::fmt::Display) -> Failure {
    Failure::File(format!("{}: {what}", path.display()))
}

/// A file's bytes.
pub fn bytes(path: &Path) -> Result<Vec<u8>, Failure> {
    std::fs::read(path).map_err(|error| failed(path, error))
}

/// A file's text.
pub fn text(path: &Path) -> Result<String, Failure> {
    String::from_utf8(bytes(path)?).map_err(|_| failed(path, "is no text"))
}

/// A new file, or an old one emptied.
pub fn created(path: &Path) -> Result<File, Failure> {
    File::create(path).map_err(|error| failed(path, error))
}

/// Writes a whole text in the place of an old one, which stays as it is until the new one is there.
pub fn replace(path: &Path, text: &str) -> Result<(), Failure> {
    let mut beside = path.as_os_str().to_owned();
    beside.push(".new");
    let written = std::fs::write(&beside, text).and_then(|()| std::fs::rename(&beside, path));
    written.map_err(|error| failed(path, error))
}

/// Hands a writer to `write`: the file that `-o` names, or standard output. A reader that stops reading standard output
/// is no failure.
pub fn output(name: Option<&str>, write: impl FnOnce(&mut dyn Write) -> Result<(), Failed>) -> Result<(), Failure> {
    let result = match name {
        Some(name) => {
            let mut file = BufWriter::new(created(Path::new(name))?);
            write(&mut file).and_then(|()| Ok(file.flush()?))
        }
        None => {
            let mut standard = BufWriter::new(io::stdout().lock());
            write(&mut standard).and_then(|()| Ok(standard.flush()?))
        }
    };
    match result {
        Ok(()) => Ok(()),
        Err(Failed::Output(error)) if name.is_none() && error.kind() == io::ErrorKind::BrokenPipe => Ok(()),
        Err(Failed::Output(error)) => Err(failed(Path::new(name.unwrap_or("standard output")), error)),
        Err(Failed::Input(failure)) => Err(failure),
    }
}

/// Prints a text to standard output.
pub fn print(text: &str) -> Result<(), Failure> {
    output(None, |out| Ok(out.write_all(text.as_bytes())?))
}

/// A line on standard error. Where nobody reads it, nothing is lost but that line.
pub fn note(text: &str) {
    let _ = writeln!(io::stderr(), "{text}");
}

/// What can fail while one file is written from others.
#[derive(Debug, Error)]
pub enum Failed {
    /// A file that is read.
    #[error(transparent)]
    Input(#[from] Failure),
    /// The file that is written.
    #[error(transparent)]
    Output(#[from] io::Error),
}

impl From<csv::Error> for Failed {
    fn from(error: csv::Error) -> Failed {
        Failed::Output(error.into())
    }
}

#[cfg(test)]
mod tests {
    use super::*;

    #[test]
    fn a_file_is_replaced_whole() {
        let path = std::env::temp_dir().join(format!("mill_{}_replaced", std::process::id()));
        replace(&path, "first").unwrap();
        replace(&path, "second").unwrap();
        assert_eq!(text(&path), Ok("second".to_string()));
        output(path.to_str(), |out| Ok(out.write_all(&[0xFF])?)).unwrap();
        assert_eq!(text(&path), Err(failed(&path, "is no text")));
        std::fs::remove_file(&path).unwrap();
        assert!(bytes(&path).is_err());
    }

    #[test]
    fn what_fails_is_said_with_its_file() {
        let full = output(Some("/dev/full"), |out| Ok(out.write_all(b"text")?)).unwrap_err();
        assert!(full.to_string().starts_with("/dev/full: No space left"), "{full}");
        let failure = Failure::File("other: gone".into());
        assert_eq!(output(Some("/dev/null"), |_| Err(failure.clone().into())), Err(failure));
        assert!(created(Path::new("/dev/null/file")).is_err());
    }
}

//! What is written, so that a cut output never looks whole.
use crate::input::reason;
use std::fs::{self, File};
use std::io::{self, BufWriter, Write};
use std::path::{Path, PathBuf};

/// Prints on standard output, all of it.
pub fn print(text: &str) -> Result<bool, String> {
    let mut out = io::stdout().lock();
    out.write_all(text.as_bytes()).and_then(|()| out.flush()).map_err(|trouble| said("standard output", &trouble))?;
    Ok(true)
}

pub fn said(what: &str, trouble: &io::Error) -> String {
    format!("{what}: {}", reason(trouble))
}

/// Where answers go: standard output, a device or pipe, or a file that gets its name only when it is whole.
pub struct Answers {
    to: BufWriter<Box<dyn Write>>,
    name: String,
    whole: Option<(File, PathBuf, PathBuf)>,
}

impl Answers {
    pub fn open(path: &Path) -> Result<Answers, String> {
        let name = path.display().to_string();
        if path.as_os_str() == "-" {
            return Ok(Answers { to: BufWriter::new(Box::new(io::stdout())), name: "standard output".to_string(), whole: None });
        }
        let is_special = fs::metadata(path).is_ok_and(|found| !found.is_file());
        if is_special {
            let file = File::options().write(true).open(path).map_err(|trouble| said(&name, &trouble))?;
            return Ok(Answers { to: BufWriter::new(Box::new(file)), name, whole: None });
        }
        let mut part = path.as_os_str().to_owned();
        part.push(".part");
        let part = PathBuf::from(part);
        let file = File::create(&part).map_err(|trouble| said(&part.display().to_string(), &trouble))?;
        let twin = file.try_clone().map_err(|trouble| said(&name, &trouble))?;
        Ok(Answers { to: BufWriter::new(Box::new(file)), name, whole: Some((twin, part, path.to_path_buf())) })
    }

    pub fn write(&mut self, bytes: &[u8]) -> Result<(), String> {
        self.to.write_all(bytes).map_err(|trouble| said(&self.name, &trouble))
    }

    /// Everything was answered: writes out what is left, and gives a file its name.
    pub fn finish(mut self) -> Result<(), String> {
        let flushed = self.to.flush();
        let placed = match self.whole.take() {
            None => flushed,
            Some((file, part, path)) => {
                let placed = flushed.and_then(|()| file.sync_all()).and_then(|()| fs::rename(&part, path));
                if placed.is_err() {
                    let _ = fs::remove_file(&part);
                }
                placed
            }
        };
        placed.map_err(|trouble| said(&self.name, &trouble))
    }

    /// Something failed: a file that is not whole is taken away.
    pub fn abandon(mut self) {
        match self.whole.take() {
            Some((_, part, _)) => {
                let _ = fs::remove_file(part);
            }
            None => {
                let _ = self.to.flush();
            }
        }
    }
}

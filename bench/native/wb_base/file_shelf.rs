// By hand: files over std::fs.
use super::{Failed, Shelf};
use std::fs::File;
use std::io::{Read, Seek, SeekFrom};

pub struct FileShelf {
    kept: Option<(String, u64, File)>,
}

impl FileShelf {
    pub fn new() -> Self {
        FileShelf { kept: None }
    }
}

impl Shelf for FileShelf {
    fn read_at(&mut self, name: &str, at: u64, buf: &mut [u8]) -> Result<usize, Failed> {
        let mut file = match self.kept.take() {
            Some((known, place, file)) if known == name && place == at => file,
            _ => {
                let mut file = File::open(name)?;
                if at > 0 {
                    file.seek(SeekFrom::Start(at))?;
                }
                file
            }
        };
        let count = file.read(buf)?;
        self.kept = Some((name.to_string(), at + count as u64, file));
        Ok(count)
    }
}

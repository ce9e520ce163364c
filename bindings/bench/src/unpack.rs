//! Opens a file, and has another program unpack it where it is packed.
use crate::errors::SourceError;
use std::fs::File;
use std::io::{self, Read, Seek, SeekFrom};
use std::path::Path;
use std::process::{Child, Command, Stdio};

/// What there is to read, and how many bytes; of a pipe that isn't known.
pub struct Opened {
    pub input: Box<dyn Read + Send>,
    pub length: Option<u64>,
}

// The first bytes of packed files, and the programs that unpack them.
const PACKED: [(&[u8], &str); 2] = [(&[0x1F, 0x8B], "gzip"), (&[0x28, 0xB5, 0x2F, 0xFD], "zstd")];

/// Opens the file; `-` is the standard input.
pub fn open(path: &Path) -> Result<Opened, SourceError> {
    if path == Path::new("-") {
        return Ok(Opened { input: Box::new(io::stdin()), length: None });
    }
    let name = path.display().to_string();
    let failed = |error: io::Error| SourceError::Io { name: name.clone(), error };
    let mut file = File::open(path).map_err(failed)?;
    let metadata = file.metadata().map_err(failed)?;
    if metadata.is_dir() {
        return Err(SourceError::Directory { name });
    }
    if !metadata.is_file() {
        return Ok(Opened { input: Box::new(file), length: None });
    }
    let mut head = [0; 4];
    let length = read_head(&mut file, &mut head).map_err(failed)?;
    file.seek(SeekFrom::Start(0)).map_err(failed)?;
    let packed = PACKED.iter().find(|(mark, _)| head[..length].starts_with(mark));
    let Some((_, program)) = packed else {
        return Ok(Opened { input: Box::new(file), length: Some(metadata.len()) });
    };
    let input = Unpacked::new(&name, program, file)?;
    Ok(Opened { input: Box::new(input), length: None })
}

fn read_head(file: &mut File, head: &mut [u8]) -> io::Result<usize> {
    let mut length = 0;
    while length < head.len() {
        match file.read(&mut head[length..]) {
            Ok(0) => break,
            Ok(read) => length += read,
            Err(error) if error.kind() == io::ErrorKind::Interrupted => {}
            Err(error) => return Err(error),
        }
    }
    Ok(length)
}

// What another program unpacks. Where that fails, the last read fails.
struct Unpacked {
    child: Child,
    program: &'static str,
    is_over: bool,
}

impl Unpacked {
    fn new(name: &str, program: &'static str, file: File) -> Result<Unpacked, SourceError> {
        let child = Command::new(program).arg("-dc").stdin(file).stdout(Stdio::piped()).spawn();
        match child {
            Ok(child) => Ok(Unpacked { child, program, is_over: false }),
            Err(error) => Err(SourceError::Unpacking { name: name.to_string(), program, why: error.to_string() }),
        }
    }

    fn end(&mut self) -> io::Result<usize> {
        self.is_over = true;
        let status = self.child.wait()?;
        match status.success() {
            true => Ok(0),
            false => Err(io::Error::other(format!("{} couldn't unpack it: {status}", self.program))),
        }
    }
}

impl Read for Unpacked {
    fn read(&mut self, out: &mut [u8]) -> io::Result<usize> {
        let Some(pipe) = self.child.stdout.as_mut().filter(|_| !self.is_over) else { return Ok(0) };
        match pipe.read(out)? {
            0 if !out.is_empty() => self.end(),
            read => Ok(read),
        }
    }
}

impl Drop for Unpacked {
    // (the rest isn't wanted)
    fn drop(&mut self) {
        if !self.is_over {
            let _ = self.child.kill();
            let _ = self.child.wait();
        }
    }
}

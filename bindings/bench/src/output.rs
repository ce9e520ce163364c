//! Where what was measured goes: to the terminal, and to files for programs and for the eye.
use crate::json::Json;
use crate::page::{page, Table};
use crate::picture::Picture;
use clap::Args;
use std::env;
use std::error::Error;
use std::fs;
use std::io::{self, Write};
use std::path::{Path, PathBuf};

/// Where to.
#[derive(Clone, Debug, Args)]
#[command(next_help_heading = "Output")]
pub struct Output {
    /// Writes all of it for programs; - is the standard output, in place of the tables
    #[arg(long, value_name = "FILE")]
    pub json: Option<PathBuf>,

    /// Writes a page with pictures and tables
    #[arg(long, value_name = "FILE")]
    pub html: Option<PathBuf>,

    /// Writes each picture to a file of its own in this folder
    #[arg(long, value_name = "FOLDER")]
    pub svg: Option<PathBuf>,

    /// Shows no progress
    #[arg(short, long)]
    pub quiet: bool,
}

/// What was measured, in each form.
#[derive(Debug)]
pub struct Told {
    /// The load, in words.
    pub load: String,
    pub text: String,
    pub json: Json,
    pub pictures: Vec<Picture>,
    pub tables: Vec<Table>,
}

impl Output {
    /// Prints it, and writes the files that are asked for.
    pub fn give(&self, told: &Told) -> Result<(), Box<dyn Error>> {
        if let Some(path) = &self.html {
            let title = "What the cache does for this load";
            write(path, &page(title, &told.load, &command(), &told.pictures, &told.tables))?;
        }
        if let Some(folder) = &self.svg {
            fs::create_dir_all(folder).map_err(|error| format!("{}: {error}", folder.display()))?;
            for picture in &told.pictures {
                write(&folder.join(file_name(&picture.title)), &picture.by_itself())?;
            }
        }
        let json = told.json.line() + "\n";
        match self.json.as_deref() {
            Some(path) if path == Path::new("-") => return Ok(io::stdout().write_all(json.as_bytes())?),
            Some(path) => write(path, &json)?,
            None => {}
        }
        Ok(io::stdout().write_all(told.text.as_bytes())?)
    }
}

// The words that the program was begun by.
fn command() -> String {
    let words: Vec<String> = env::args().skip(1).collect();
    format!("kilambosetry-bench {}", words.join(" "))
}

fn file_name(title: &str) -> String {
    let words = title.split(|letter: char| !letter.is_alphanumeric()).filter(|word| !word.is_empty());
    words.map(str::to_lowercase).collect::<Vec<_>>().join("-") + ".svg"
}

fn write(path: &Path, text: &str) -> Result<(), Box<dyn Error>> {
    fs::write(path, text).map_err(|error| format!("{}: {error}", path.display()).into())
}

#[cfg(test)]
mod tests {
    use super::*;

    #[test]
    fn files_are_named_by_their_titles() {
        assert_eq!(file_name("Hits by memory, by a sample"), "hits-by-memory-by-a-sample.svg");
    }
}

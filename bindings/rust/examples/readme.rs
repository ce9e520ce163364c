//! The code of README.md, and what becomes of it: each row is loaded once, found in memory or on flash from then on, and loaded
//! anew once it was changed.
//! `tools/check-docs` compares the text with the page, and `bindings/build.sh` runs it.
use kilambosetry::{HybridCache, LoadError, OpenError, Options};
use std::error::Error;
use std::path::Path;
use std::{env, fs, io, process};

mod database {
    use std::io;
    use std::sync::Mutex;

    static RENAMED: Mutex<Option<(String, String)>> = Mutex::new(None);

    pub fn load(user: &str) -> io::Result<Vec<u8>> {
        let renamed = RENAMED.lock().unwrap();
        let name = renamed.as_ref().filter(|(of, _)| of == user).map_or(user, |(_, name)| name);
        Ok(format!("{name} has {}", "a long row ".repeat(30)).into_bytes())
    }

    pub fn rename(user: &str, name: &str) -> io::Result<()> {
        *RENAMED.lock().unwrap() = Some((user.to_string(), name.to_string()));
        Ok(())
    }
}

fn open(path: &Path) -> Result<HybridCache, OpenError> {
    let options = Options { memory: 10_000_000, flash: 200_000_000, mean_value: 400, ..Options::default() };
    HybridCache::open(path, &options) // a handle, to be cloned for any number of threads
}

fn profile(cache: &HybridCache, user: &str) -> Result<Vec<u8>, LoadError<io::Error>> {
    // from memory or flash, or else from the database: one thread asks it, and who misses the same row waits for that
    let row = cache.get_or_load(user.as_bytes(), 3600, || database::load(user))?;
    Ok(row.into_vec())
}

fn rename(cache: &HybridCache, user: &str, name: &str) -> io::Result<()> {
    // whatever comes of the commit: once this is back nobody finds an older row, also none that was loaded before
    cache.change(user.as_bytes(), || database::rename(user, name))
}

fn main() -> Result<(), Box<dyn Error>> {
    let path = env::temp_dir().join(format!("readme-{}", process::id()));
    let cache = open(&path)?;
    for _ in 0..2 {
        for number in 0..50_000 {
            let user = format!("user:{number}");
            assert_eq!(profile(&cache, &user)?, database::load(&user)?);
            if number % 100 == 0 {
                cache.flush()?; // (as slow as a database)
            }
        }
    }
    rename(&cache, "user:7", "Ada")?;
    assert!(profile(&cache, "user:7")?.starts_with(b"Ada has"));
    let stats = cache.close().stats;
    fs::remove_file(path)?;
    println!("{stats}");
    assert!(stats.hits() > 49_000 && stats.hits_from_flash > 40_000);
    Ok(())
}

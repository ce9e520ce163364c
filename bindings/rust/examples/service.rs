//! A cache before a database: eight threads read and change rows, and none reads an older row than was there before.
use kilambosetry::{HybridCache, LoadError, Options};
use std::convert::Infallible;
use std::{env, fs, process, sync::RwLock, thread};

struct Service {
    cache: HybridCache,
    rows: RwLock<Vec<u64>>, // the database
}

impl Service {
    fn read(&self, user: u32) -> Result<u64, LoadError<Infallible>> {
        let load = || Ok(self.rows.read().unwrap()[user as usize].to_be_bytes());
        let row = self.cache.get_or_load(&user.to_be_bytes(), 3600, load)?;
        Ok(u64::from_be_bytes(row[..].try_into().unwrap()))
    }
    fn change(&self, user: u32) -> Result<(), Infallible> {
        self.cache.change(&user.to_be_bytes(), || {
            self.rows.write().unwrap()[user as usize] += 1;
            Ok(())
        })
    }
}

fn main() -> Result<(), Box<dyn std::error::Error>> {
    let path = env::temp_dir().join(format!("rows-{}", process::id()));
    let cache = HybridCache::open(&path, &Options { memory: 1_000_000, flash: 100_000_000, ..Options::default() })?;
    let service = Service { cache, rows: vec![0; 25_000].into() };
    let serve = |user: u32| {
        let before = service.read(user).unwrap();
        service.change(user).unwrap();
        assert!(service.read(user).unwrap() > before);
    };
    thread::scope(|all| (0..8).for_each(|at| drop(all.spawn(move || (at * 2500..).take(7500).for_each(serve)))));
    println!("{}", service.cache.close());
    Ok(fs::remove_file(path)?)
}

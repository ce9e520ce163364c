//! What a server keeps over a restart, and what it doesn't.
mod support;

use kilambosetry::{Began, NotKept, OpenError, WhyEmpty};
use kilambosetryd::config::Config;
use kilambosetryd::listen::Running;
use kilambosetryd::server::Server;
use std::fs;
use std::path::PathBuf;
use std::thread;
use std::time::Duration;
use support::{config, unique_of, Client};

// A folder of a test's own, which is removed in the end.
struct Place(PathBuf);

impl Place {
    fn new(name: &str) -> Place {
        let folder = std::env::temp_dir().join(format!("server-keep-{name}-{}", std::process::id()));
        let _ = fs::remove_dir_all(&folder);
        fs::create_dir(&folder).unwrap();
        Place(folder)
    }

    fn config(&self, words: &[&str]) -> Config {
        let path = |name: &str| self.0.join(name).to_str().unwrap().to_string();
        let (flash, kept) = (path("flash"), path("kept"));
        let own = ["--memory", "2", "--flash", &flash, "--flash-size", "20", "--keep", &kept, "--shards", "4"];
        config(&[&own[..], words].concat())
    }

    // (the one before may be about to let its file go)
    fn start(&self, words: &[&str]) -> Running {
        let config = self.config(words);
        for _ in 0..500 {
            match config.open() {
                Ok(cache) => return Running::start(Server::new(config, cache)).unwrap(),
                Err(OpenError::File { .. }) => thread::sleep(Duration::from_millis(10)),
                Err(error) => panic!("{error}"),
            }
        }
        panic!("another has the file")
    }
}

impl Drop for Place {
    fn drop(&mut self) {
        let _ = fs::remove_dir_all(&self.0);
    }
}

// Ends it in order: what is kept.
fn end(running: Running) -> Result<u64, NotKept> {
    let server = running.server.clone();
    assert!(running.stop());
    server.close().kept.map(|saved| saved.shards)
}

fn has_kept(running: &Running) -> bool {
    matches!(running.server.items.cache().kept(), Began::Kept(_))
}

#[test]
fn items_and_uniques_go_on() {
    let place = Place::new("items");
    let running = place.start(&[]);
    let mut client = Client::of(&running);
    for key in 0..5_000 {
        assert_eq!(client.ask(&format!("set key{key} 7 0 1000\r\n{key:01000}\r\n")), "STORED");
    }
    assert_eq!(client.ask("set number 0 0 1\r\n8\r\n"), "STORED");
    client.ask("mg row N30 c t\r\n");
    let before = unique_of(&client.ask("ms last 1 c\r\nx\r\n"));
    let found = (0..5_000).filter(|key| client.value(&format!("key{key}")).is_some()).count();
    assert!(found > 4_000, "{found}");
    drop(client);
    assert_eq!(end(running).unwrap(), 4);
    let running = place.start(&[]);
    assert!(has_kept(&running));
    let mut client = Client::of(&running);
    let again = (0..5_000).filter(|key| client.value(&format!("key{key}")) == Some(format!("{key:01000}"))).count();
    assert_eq!(again, found);
    assert_eq!(client.ask("incr number 1\r\n"), "9");
    assert!(unique_of(&client.ask("ms last 1 c\r\ny\r\n")) > before);
    assert!(running.stop());
}

#[test]
fn what_was_flushed_stays_so() {
    let place = Place::new("flushed");
    let running = place.start(&[]);
    let mut client = Client::of(&running);
    assert_eq!(client.ask("set old 0 0 1\r\nx\r\n"), "STORED");
    assert_eq!(client.ask("flush_all\r\n"), "OK");
    assert_eq!(client.ask("set new 0 0 1\r\nx\r\n"), "STORED");
    drop(client);
    end(running).unwrap();
    let running = place.start(&[]);
    let mut client = Client::of(&running);
    assert_eq!((client.value("old"), client.value("new").as_deref()), (None, Some("x")));
    // one that is due behind the restart
    assert_eq!(client.ask("flush_all 3\r\n"), "OK");
    assert_eq!(client.value("new").as_deref(), Some("x"));
    drop(client);
    end(running).unwrap();
    let running = place.start(&[]);
    assert!(has_kept(&running));
    let mut client = Client::of(&running);
    thread::sleep(Duration::from_millis(3_100));
    assert_eq!(client.value("new"), None);
    assert_eq!(client.ask("set new 0 0 1\r\ny\r\n"), "STORED");
    assert_eq!(client.value("new").as_deref(), Some("y"));
    // one that is due while no server is there
    assert_eq!(client.ask("flush_all 1\r\n"), "OK");
    drop(client);
    end(running).unwrap();
    thread::sleep(Duration::from_millis(2_100));
    let running = place.start(&[]);
    assert!(has_kept(&running));
    let mut client = Client::of(&running);
    assert_eq!(client.ask("set behind 0 0 1\r\nz\r\n"), "STORED");
    assert_eq!((client.value("behind").as_deref(), client.value("new")), (Some("z"), None));
    assert!(running.stop());
}

#[test]
fn a_key_with_a_bar_and_a_lease_of_before_are_gone() {
    let place = Place::new("bars");
    let running = place.start(&[]);
    let mut client = Client::of(&running);
    for key in ["barred", "free"] {
        assert_eq!(client.ask(&format!("set {key} 0 0 1\r\nx\r\n")), "STORED");
    }
    assert!(client.ask("md barred B60\r\n").starts_with("HD B"));
    assert_eq!(client.ask("set barred 0 0 3\r\nnew\r\n"), "STORED");
    let lease = unique_of(&client.ask("mg row N30 c t\r\n"));
    let other = unique_of(&client.ask("mg loaded N30 c t\r\n"));
    assert_eq!(client.ask("delete loaded\r\n"), "DELETED");
    drop(client);
    end(running).unwrap();
    let running = place.start(&[]);
    let mut client = Client::of(&running);
    assert_eq!((client.value("barred"), client.value("free").as_deref()), (None, Some("x")));
    // the stub of a lease is an item: its row is stored where nothing has changed since, and else isn't
    assert_eq!(client.ask(&format!("ms row 3 C{lease}\r\nrow\r\n")), "HD");
    assert_eq!(client.ask(&format!("ms loaded 3 C{other}\r\nrow\r\n")), "NF");
    assert!(running.stop());
}

#[test]
fn a_client_that_takes_no_answers_is_cut_off_and_the_rest_is_kept() {
    for drain in ["1", "0"] {
        cut_off(drain);
    }
}

fn cut_off(drain: &str) {
    let place = Place::new("cut");
    let running = place.start(&["--drain", drain]);
    let mut client = Client::of(&running);
    assert_eq!(client.ask(&format!("set long 0 0 300000\r\n{}\r\n", "x".repeat(300_000))), "STORED");
    assert_eq!(client.ask("set key 0 0 1\r\nx\r\n"), "STORED");
    let mut stalls = Client::of(&running);
    stalls.send(&"get long\r\n".repeat(200));
    thread::sleep(Duration::from_millis(200));
    let server = running.server.clone();
    assert!(!running.stop(), "it has its answers");
    server.close().kept.unwrap();
    drop(server);
    let running = place.start(&[]);
    assert!(has_kept(&running));
    assert_eq!(Client::of(&running).value("key").as_deref(), Some("x"));
    assert!(running.stop());
}

#[test]
fn a_server_that_just_ends_and_one_with_other_numbers_begin_empty() {
    let place = Place::new("empty");
    let why = |running: &Running| match running.server.items.cache().kept() {
        Began::Empty(why) => *why,
        other => panic!("{other}"),
    };
    let running = place.start(&[]);
    assert_eq!(Client::of(&running).ask("set key 0 0 1\r\nx\r\n"), "STORED");
    assert!(running.stop());
    let running = place.start(&[]);
    assert_eq!(why(&running), WhyEmpty::NoSeal);
    assert_eq!(Client::of(&running).value("key"), None);
    assert_eq!(Client::of(&running).ask("set key 0 0 1\r\nx\r\n"), "STORED");
    end(running).unwrap();
    let running = place.start(&["--mean-value", "300"]);
    assert_eq!(why(&running), WhyEmpty::OtherOptions);
    assert_eq!(Client::of(&running).value("key"), None);
    assert!(running.stop());
}

//! Nothing older than what was answered is found: amid a flush, a change whose answer isn't there yet, and a delete that is refused.
mod support;

use kilambosetry::{HybridCache, Options};
use kilambosetryd::head::{Head, Item};
use kilambosetryd::items::Items;
use std::future::Future;
use std::time::Duration;
use support::{in_memory, unique_of, wait_until, Client};
use tokio::runtime::Builder;

fn done<F: Future>(future: F) -> F::Output {
    Builder::new_current_thread().enable_time().build().unwrap().block_on(future)
}

fn items() -> Items {
    Items::new(HybridCache::in_memory(&Options::default()).unwrap(), Duration::from_secs(1))
}

async fn put(items: &Items, key: &[u8], value: &[u8]) {
    let change = items.change(key).await.unwrap();
    let mut item = Item::new(change.new_head(0, Head::default().expiry), value).unwrap();
    change.store(&mut item).await.unwrap();
}

// Stores what is under the key anew, as an `append` does; between the two steps comes what `between` does.
async fn renew(items: &Items, key: &[u8], between: impl FnOnce()) {
    let change = items.change(key).await.unwrap();
    let Some(found) = change.find().await else { return };
    between();
    let mut item = Item::new(change.new_head(0, found.head.expiry), found.value()).unwrap();
    change.store(&mut item).await.unwrap();
}

fn flush(items: &Items) {
    items.flush(Head::default().expiry); // (one that never comes is now)
}

#[test]
fn who_found_an_item_before_a_flush_stores_none_behind_it() {
    let items = items();
    done(async {
        put(&items, b"row", b"old").await;
        renew(&items, b"row", || flush(&items)).await;
        assert!(items.find(b"row").await.is_none(), "what was flushed is found");
        put(&items, b"row", b"new").await;
        assert_eq!(items.find(b"row").await.unwrap().value(), b"new");
    });
}

// The number of the bar that is set.
fn barred(client: &mut Client, command: &str) -> u64 {
    let line = client.ask(command);
    line.strip_prefix("HD B").unwrap_or_else(|| panic!("{line}")).parse().unwrap()
}

#[test]
fn nothing_that_was_loaded_is_stored_under_a_key_that_is_being_changed() {
    let running = in_memory(&[]);
    let mut client = Client::of(&running);
    let before = unique_of(&client.ask("mg row N30 c t\r\n"));
    let bar = barred(&mut client, "md row B30\r\n");
    assert_eq!(client.ask(&format!("ms row 3 C{before}\r\nold\r\n")), "EX");
    assert_eq!(client.ask(&format!("cas row 0 0 3 {before}\r\nold\r\n")), "EXISTS");
    assert_eq!(client.ask(&format!("md row D{bar}\r\n")), "HD");
    assert_eq!(client.ask(&format!("ms row 3 C{before}\r\nold\r\n")), "NF");
    let behind = unique_of(&client.ask("mg row N30 c t\r\n"));
    assert_eq!(client.ask(&format!("ms row 3 C{behind}\r\nnew\r\n")), "HD");
    // what is there is found until the delete
    let bar = barred(&mut client, "md row B30\r\n");
    assert_eq!(client.value("row").as_deref(), Some("new"));
    assert_eq!(client.ask(&format!("md row D{bar} q\r\nmn\r\n")), "MN");
    assert_eq!(client.value("row"), None);
    assert!(running.stop());
}

#[test]
fn a_change_ends_its_own_bar_alone() {
    let running = in_memory(&[]);
    let mut client = Client::of(&running);
    let one = barred(&mut client, "md row B30\r\n");
    let other = barred(&mut client, "md row B30\r\n");
    assert_ne!(one, other);
    for (command, answer) in [
        (format!("md row D{one}\r\n"), "EX"),
        ("md row\r\n".to_string(), "EX"), // (of who has set none)
        ("md elsewhere\r\n".to_string(), "EX"),
        (format!("md elsewhere D{other}\r\n"), "EX"), // (it isn't that key's)
        (format!("md row D{other}\r\n"), "HD"),
        (format!("md row D{other}\r\n"), "HD"), // (it is over, and deletes as any does)
    ] {
        client.ask(&command);
        let lease = unique_of(&client.ask("mg row N30 c t\r\n"));
        assert_eq!(client.ask(&format!("ms row 3 C{lease}\r\nrow\r\n")), answer, "{command}");
    }
    assert!(running.stop());
}

#[test]
fn a_bar_whose_change_is_not_heard_of_again_ends_by_its_limit_with_a_delete() {
    let running = in_memory(&[]);
    let mut client = Client::of(&running);
    assert_eq!(client.ask("set row 0 0 3\r\nold\r\n"), "STORED");
    let mut dies = Client::of(&running);
    barred(&mut dies, "md row B2\r\n");
    drop(dies);
    assert_eq!(client.value("row").as_deref(), Some("old"));
    let mut other = Client::of(&running);
    wait_until(|| running.server.sums().bars_ended == 1);
    assert_eq!(other.value("row"), None);
    let lease = unique_of(&other.ask("mg row N30 c t\r\n"));
    assert_eq!(other.ask(&format!("ms row 3 C{lease}\r\nnew\r\n")), "HD");
    assert_eq!(running.server.items.bars(), 0);
    assert!(running.stop());
}

#[test]
fn a_bar_wants_seconds_from_1_to_a_day_on() {
    let running = in_memory(&[]);
    let mut client = Client::of(&running);
    for command in ["md row B", "md row B0", "md row B-1", "md row Bx", "md row B86401", "md row D", "md row B3 D4"] {
        assert_eq!(client.ask(&format!("{command}\r\n")), "CLIENT_ERROR invalid or duplicate flag", "{command}");
    }
    for command in ["mg row B3", "ma row B3"] {
        assert!(client.ask(&format!("{command}\r\n")).starts_with("CLIENT_ERROR invalid"), "{command}");
    }
    assert!(client.ask("md row B86400 Oabc k\r\n").ends_with(" Oabc krow"));
    assert!(running.stop());
}

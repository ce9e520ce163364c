//! What a client may take of the server: bytes, and time.
mod support;

use std::collections::HashMap;
use std::io::Read;
use std::thread;
use std::time::{Duration, Instant};
use support::{fill, in_memory, over, wait_until, Client, Hanging};

#[test]
fn who_sends_little_takes_little_of_the_bytes_in_flight() {
    let running = in_memory(&["--in-flight", "1"]);
    let mut client = Client::of(&running);
    let body = "x".repeat(500_000);
    let slow: Vec<Client> = (0..50)
        .map(|number| {
            let mut slow = Client::of(&running);
            slow.send(&format!("set slow{number} 0 0 900000\r\nx"));
            slow
        })
        .collect();
    wait_until(|| running.server.sums().bytes_read >= 50 * 22);
    assert_eq!(client.ask(&format!("set key 0 0 {}\r\n{body}\r\n", body.len())), "STORED");
    assert_eq!(client.value("key").map(|value| value.len()), Some(body.len()));
    drop(slow);
    assert!(running.stop());
}

#[test]
fn lines_are_bytes_in_flight_too() {
    let running = in_memory(&["--in-flight", "1"]);
    let mut slow: Vec<Client> = (0..4).map(|_| Client::of(&running)).collect();
    for client in &mut slow {
        client.send(&format!("get {}", "k".repeat(400_000)));
    }
    wait_until(|| running.server.sums().in_flight_refused >= 2);
    let free = running.server.in_flight.left();
    assert!(free < 1_000_000, "{free} bytes are free");
    drop(slow);
    wait_until(|| running.server.in_flight.left() == 1_000_000);
    assert_eq!(Client::of(&running).ask("mn\r\n"), "MN");
    assert!(running.stop());
}

#[test]
fn a_line_that_finds_no_room_is_answered_and_ends_the_connection() {
    let running = in_memory(&["--in-flight", "0"]);
    let mut client = Client::of(&running);
    client.send(&format!("get {}", "k".repeat(200_000)));
    assert_eq!(client.line(), "SERVER_ERROR out of memory reading request");
    assert_eq!(client.rest(), "");
    assert!(running.stop());
}

#[test]
fn a_command_that_comes_byte_by_byte_has_a_limit_as_a_whole() {
    let running = in_memory(&["--command", "2", "--stall", "600"]);
    let (mut line, mut body) = (Client::of(&running), Client::of(&running));
    body.send("set key 0 0 900000\r\n");
    let begin = Instant::now();
    while running.server.sums().stall_kicks < 2 {
        line.try_send("k");
        body.try_send("x");
        assert!(begin.elapsed() < Duration::from_secs(60), "they go on for as long as they like");
        thread::sleep(Duration::from_millis(50));
    }
    assert!(begin.elapsed() > Duration::from_secs(1));
    assert!(running.stop());
}

#[test]
fn an_answer_that_is_taken_byte_by_byte_has_a_limit_as_a_whole() {
    let running = in_memory(&["--command", "2", "--stall", "600"]);
    let mut client = Client::of(&running);
    let body = "x".repeat(1_000_000);
    assert_eq!(client.ask(&format!("set key 0 0 {}\r\n{body}\r\n", body.len())), "STORED");
    client.send(&"get key\r\n".repeat(100));
    let begin = Instant::now();
    let mut some = [0; 16];
    while running.server.sums().stall_kicks == 0 {
        client.0.get_mut().read_exact(&mut some).unwrap();
        assert!(begin.elapsed() < Duration::from_secs(60), "it goes on for as long as it likes");
        thread::sleep(Duration::from_millis(50));
    }
    assert!(running.stop());
}

#[test]
fn a_byte_of_another_protocol_ends_the_connection_at_once() {
    let running = in_memory(&["--stall", "600"]);
    for first in [b"\x80\x0b".as_slice(), b"\x16\x03\x01\x02\x00", b"\0"] {
        let mut client = Client::of(&running);
        client.try_send_bytes(first);
        client.try_send_bytes(&[0; 22]);
        assert_eq!(client.rest(), "", "{first:?}");
    }
    // later it is a command that isn't known, as any other
    let mut client = Client::of(&running);
    assert_eq!(client.ask("mn\r\n"), "MN");
    client.try_send_bytes(b"\x80\n");
    assert_eq!(client.line(), "ERROR");
    assert!(running.stop());
}

#[test]
fn a_refused_value_takes_the_old_one_only_where_it_was_to_replace_it() {
    let running = in_memory(&[]);
    let mut client = Client::of(&running);
    let body = "x".repeat(1_100_000);
    for (command, stays) in [
        ("set key 0 0", false),
        ("replace key 0 0", false),
        ("add key 0 0", true),
        ("append key 0 0", true),
        ("ms key", false),
        ("ms key ME", true),
        ("ms key MA", true),
        ("ms key C1", true),
    ] {
        assert_eq!(client.ask("set key 0 0 3\r\nold\r\n"), "STORED");
        let (name, flags) = command.split_at(command.find(" M").or(command.find(" C")).unwrap_or(command.len()));
        client.send(&format!("{name} {}{flags}\r\n{body}\r\n", body.len()));
        assert_eq!(client.line(), "SERVER_ERROR object too large for cache", "{command}");
        assert_eq!(client.value("key").is_some(), stays, "{command}");
    }
    assert!(running.stop());
}

// The values that a command for these keys finds, by their keys.
fn found(client: &mut Client) -> HashMap<String, String> {
    let mut found = HashMap::new();
    loop {
        let line = client.line();
        if line == "END" {
            return found;
        }
        let key = line.split(' ').nth(1).unwrap().to_string();
        found.insert(key, client.line());
    }
}

#[test]
fn a_get_of_many_keys_asks_for_all_before_it_waits_for_the_first() {
    let keys: String = (0..100).map(|key| format!(" key{key}")).collect();
    for command in ["get", "gets", "gat 0"] {
        let device = Hanging::default();
        let running = over(&device, &["--flash-wait", "60000"]);
        fill(&running, 400);
        device.hang(true);
        let mut client = Client::of(&running);
        client.send(&format!("{command}{keys}\r\n"));
        // each of the four fillers reads for it
        wait_until(|| device.waiting() == 4 && running.server.items.cache().stats().waiting > 50);
        device.hang(false);
        let found = found(&mut client);
        for key in 0..100 {
            assert_eq!(found.get(&format!("key{key}")), Some(&format!("{key:06}")), "{command}");
        }
        assert!(running.stop());
    }
}

#[test]
fn a_get_of_many_keys_answers_in_their_order_what_memory_and_flash_have() {
    let device = Hanging::default();
    let running = over(&device, &[]);
    fill(&running, 400);
    // more than are asked for at once, some twice, and some that there aren't
    let keys: Vec<_> = (0..600).map(|at| at * 7 % 450).collect();
    let mut client = Client::of(&running);
    client.send(&format!("get{}\r\n", keys.iter().map(|key| format!(" key{key}")).collect::<String>()));
    for key in keys.iter().filter(|key| **key < 400) {
        assert_eq!(client.line(), format!("VALUE key{key} 0 6"));
        assert_eq!(client.line(), format!("{key:06}"));
    }
    assert_eq!(client.line(), "END");
    let sums = running.server.sums();
    assert_eq!((sums.cmd_get, sums.get_hits), (600, keys.iter().filter(|key| **key < 400).count() as u64));
    assert!(running.stop());
}

#[test]
fn what_is_asked_for_ahead_leaves_half_of_the_bytes_in_flight_to_others() {
    let device = Hanging::default();
    let running = over(&device, &["--flash-wait", "60000", "--in-flight", "1"]);
    fill(&running, 600);
    device.hang(true);
    let keys: String = (0..300).map(|key| format!(" key{key}")).collect();
    let mut clients: Vec<_> = (0..8).map(|_| Client::of(&running)).collect();
    clients.iter_mut().for_each(|client| client.send(&format!("get{keys}\r\n")));
    // (a value of flash may have 4000 bytes: 125 of them are half a megabyte, and each client has one beside)
    wait_until(|| running.server.items.cache().stats().waiting == 125 + 8);
    let left = running.server.in_flight.left();
    assert!((500_000..510_000).contains(&left), "{left}");
    let mut other = Client::of(&running);
    let body = "x".repeat(300_000);
    // (it comes whole, and the cache has no room for it)
    let answer = other.ask(&format!("set other 0 0 {}\r\n{body}\r\n", body.len()));
    assert_eq!(answer, "SERVER_ERROR object too large for cache");
    assert_eq!(running.server.sums().in_flight_refused, 0);
    device.hang(false);
    for client in &mut clients {
        assert_eq!(found(client).len(), 300);
    }
    wait_until(|| running.server.in_flight.left() == 1_000_000);
    assert!(running.stop());
}

#[test]
fn a_get_of_many_keys_waits_for_flash_that_hangs_once() {
    let device = Hanging::default();
    let running = over(&device, &["--flash-wait", "500"]);
    fill(&running, 400);
    device.hang(true);
    let keys: String = (0..100).map(|key| format!(" key{key}")).collect();
    for command in ["get", "gat 0"] {
        let mut client = Client::of(&running);
        let begin = Instant::now();
        client.send(&format!("{command}{keys}\r\n"));
        while client.line() != "END" {}
        let took = begin.elapsed();
        assert!(took > Duration::from_millis(400), "nothing was on flash alone: {took:?}");
        assert!(took < Duration::from_secs(20), "{command}: {took:?}");
    }
    device.hang(false);
    assert!(running.stop());
}

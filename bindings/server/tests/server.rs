//! The server over a socket: what hangs holds up nobody else, what reads and writes is one, and it ends when it is told to.
mod support;

use std::collections::HashMap;
use std::io::Write;
use std::sync::Mutex;
use std::thread;
use std::time::{Duration, Instant};
use support::{each_of, fill, in_memory, over, unique_of, wait_until, waiting, Client, Hanging};

#[test]
fn a_device_that_hangs_holds_up_only_those_who_ask_for_its_key() {
    let device = Hanging::default();
    let running = over(&device, &["--threads", "1", "--flash-wait", "60000"]);
    fill(&running, 400);
    let (mut waits, key) = waiting(&running, &device);
    let mut others = Client::of(&running);
    let begin = Instant::now();
    for number in 0..200 {
        assert_eq!(others.ask(&format!("set other{number} 0 0 1\r\nx\r\n")), "STORED");
    }
    assert_eq!(others.value("other199").as_deref(), Some("x"));
    assert_eq!(others.ask("incr other199 1\r\n"), "CLIENT_ERROR cannot increment or decrement non-numeric value");
    assert!(begin.elapsed() < Duration::from_secs(20), "others were held up");
    // a set of the key itself needn't wait, and answers who does
    assert_eq!(others.ask(&format!("set {key} 0 0 3\r\nnew\r\n")), "STORED");
    assert_eq!(waits.line(), format!("VALUE {key} 0 3"));
    device.hang(false);
    assert_eq!(others.value(&key).as_deref(), Some("new"));
    assert!(running.stop());
}

#[test]
fn what_flash_does_not_answer_in_time_is_a_miss_and_a_delete_holds() {
    let device = Hanging::default();
    let running = over(&device, &["--threads", "1", "--flash-wait", "200"]);
    fill(&running, 400);
    let (mut client, key) = waiting(&running, &device);
    assert_eq!(client.line(), "END");
    assert_eq!(client.ask(&format!("append {key} 0 0 1\r\nx\r\n")), "NOT_STORED");
    assert_eq!(client.ask(&format!("delete {key}\r\n")), "NOT_FOUND");
    device.hang(false);
    assert_eq!(client.value(&key), None);
    assert!(running.stop());
}

#[test]
fn many_who_count_one_number_lose_none() {
    let running = in_memory(&[]);
    assert_eq!(Client::of(&running).ask("set number 0 0 1\r\n0\r\n"), "STORED");
    each_of(16, &running, |client, _| {
        for _ in 0..500 {
            client.ask("incr number 1\r\n");
        }
    });
    assert_eq!(Client::of(&running).value("number").as_deref(), Some("8000"));
    assert!(running.stop());
}

#[test]
fn appended_pieces_are_whole() {
    let running = in_memory(&[]);
    assert_eq!(Client::of(&running).ask("set list 0 0 1\r\n.\r\n"), "STORED");
    each_of(16, &running, |client, number| {
        for step in 0..50 {
            let piece = format!("<{number:02}:{step:02}>");
            let how = if step % 2 == 0 { "append" } else { "prepend" };
            assert_eq!(client.ask(&format!("{how} list 0 0 {}\r\n{piece}\r\n", piece.len())), "STORED");
        }
    });
    let list = Client::of(&running).value("list").unwrap();
    assert_eq!(list.len(), 1 + 16 * 50 * 7);
    for (number, step) in (0..16).flat_map(|number| (0..50).map(move |step| (number, step))) {
        assert_eq!(list.matches(&format!("<{number:02}:{step:02}>")).count(), 1);
    }
    assert!(running.stop());
}

#[test]
fn one_of_many_adds_and_of_many_who_miss_wins() {
    let running = in_memory(&[]);
    let (adds, wins) = (Mutex::new(0), Mutex::new(0));
    for round in 0..50 {
        each_of(8, &running, |client, _| {
            if client.ask(&format!("add one{round} 0 0 1\r\nx\r\n")) == "STORED" {
                *adds.lock().unwrap() += 1;
            }
            match client.ask(&format!("mg two{round} N30 t\r\n")).as_str() {
                line if line.ends_with(" W") => *wins.lock().unwrap() += 1,
                line => assert!(line.ends_with(" Z"), "{line}"),
            }
        });
    }
    assert_eq!((*adds.lock().unwrap(), *wins.lock().unwrap()), (50, 50));
    assert!(running.stop());
}

#[test]
fn what_was_loaded_before_a_change_is_not_stored_after_it() {
    let running = in_memory(&[]);
    let mut client = Client::of(&running);
    for (change, refused) in [
        ("delete row\r\n", "NF"),
        ("set row 0 0 3\r\nnew\r\n", "EX"),
        ("flush_all\r\n", "NF"),
        ("md row I\r\n", "EX"),
        ("ms row 3\r\nnew\r\n", "EX"),
        ("touch row -1\r\n", "NF"),
    ] {
        client.ask("delete row\r\n");
        let lease = unique_of(&client.ask("mg row N30 c t\r\n"));
        client.ask(change);
        assert_eq!(client.ask(&format!("ms row 3 C{lease}\r\nold\r\n")), refused, "{change}");
    }
    client.ask("delete row\r\n");
    let lease = unique_of(&client.ask("mg row N30 c t\r\n"));
    assert_eq!(client.ask(&format!("ms row 3 C{lease}\r\nrow\r\n")), "HD");
    assert_eq!(client.value("row").as_deref(), Some("row"));
    assert!(running.stop());
}

#[test]
fn a_lease_of_a_server_that_was_started_anew_is_none() {
    let first = in_memory(&[]);
    let lease = unique_of(&Client::of(&first).ask("mg row N30 c t\r\n"));
    assert!(first.stop());
    let second = in_memory(&[]);
    let mut client = Client::of(&second);
    assert!(unique_of(&client.ask("mg row N30 c t\r\n")) > lease);
    assert_eq!(client.ask(&format!("ms row 3 C{lease}\r\nold\r\n")), "EX");
    assert!(second.stop());
}

#[test]
fn numbers_wrap_upwards_and_stop_at_none_downwards() {
    let running = in_memory(&[]);
    let mut client = Client::of(&running);
    for (value, command, answer, left) in [
        ("18446744073709551615", "incr n 2", "1", "1                   "),
        ("10", "decr n 1", "9", "9 "),
        ("10", "decr n 11", "0", "0 "),
        ("9", "incr n 18446744073709551615", "8", "8"),
        ("99", "ma n v", "VA 3", "100"),
        ("5 five", "incr n 1", "6", "6     "),
    ] {
        assert_eq!(client.ask(&format!("set n 7 0 {}\r\n{value}\r\n", value.len())), "STORED");
        assert_eq!(client.ask(&format!("{command}\r\n")), answer, "{value}, {command}");
        if answer.starts_with("VA") {
            assert_eq!(client.line(), left);
        }
        client.send("get n\r\n");
        assert_eq!(client.line(), format!("VALUE n 7 {}", left.len()));
        assert_eq!(client.line(), left.trim_end());
        assert_eq!(client.line(), "END");
    }
    for value in ["", "five", "-1", "18446744073709551616", "1.5"] {
        assert_eq!(client.ask(&format!("set n 0 0 {}\r\n{value}\r\n", value.len())), "STORED");
        let refused = "CLIENT_ERROR cannot increment or decrement non-numeric value";
        assert_eq!(client.ask("incr n 1\r\n"), refused, "{value}");
    }
    assert_eq!(client.ask("incr none 1\r\n"), "NOT_FOUND");
    assert_eq!(client.ask("ma none N0 J13 D7 v\r\n"), "VA 2");
    assert_eq!(client.line(), "13");
    assert!(running.stop());
}

#[test]
fn items_end_at_their_time_and_as_a_flush_says() {
    let running = in_memory(&[]);
    let mut client = Client::of(&running);
    assert_eq!(client.ask("set brief 0 1 1\r\nx\r\n"), "STORED");
    assert_eq!(client.ask("set lasts 0 100 1\r\nx\r\n"), "STORED");
    assert_eq!(client.ask("flush_all 6\r\n"), "OK");
    thread::sleep(Duration::from_millis(1100));
    assert_eq!(client.value("brief"), None);
    assert_eq!(client.value("lasts").as_deref(), Some("x"));
    thread::sleep(Duration::from_millis(5200));
    assert_eq!(client.value("lasts"), None);
    assert_eq!(client.ask("set after 0 0 1\r\nx\r\n"), "STORED");
    assert_eq!(client.value("after").as_deref(), Some("x"));
    assert!(running.stop());
}

#[test]
fn what_is_stored_behind_a_flush_that_was_due_stays() {
    let running = in_memory(&[]);
    let mut client = Client::of(&running);
    assert_eq!(client.ask("set before 0 0 1\r\nx\r\n"), "STORED");
    assert_eq!(client.ask("flush_all 1\r\n"), "OK");
    thread::sleep(Duration::from_millis(2100));
    // (nothing was asked for meanwhile)
    assert_eq!(client.ask("set after 0 0 1\r\nx\r\n"), "STORED");
    assert_eq!((client.value("after").as_deref(), client.value("before")), (Some("x"), None));
    assert!(running.stop());
}

// What agents read of `stats` (Telegraf's, Datadog's and collectd's plugins, and the exporter for Prometheus, without slabs).
const ROWS: &str = "accepting_conns auth_cmds auth_errors bytes bytes_read bytes_written cas_badval cas_hits cas_misses cmd_flush cmd_get \
    cmd_set cmd_touch conn_yields connection_structures curr_connections curr_items decr_hits decr_misses delete_hits delete_misses \
    evicted_active evicted_unfetched evictions expired_unfetched get_expired get_flushed get_hits get_misses hash_bytes \
    hash_is_expanding hash_power_level incr_hits incr_misses limit_maxbytes listen_disabled_num max_connections pid pointer_size \
    reclaimed rejected_connections rusage_system rusage_user slab_reassign_running slabs_moved store_no_memory store_too_large threads \
    time time_in_listen_disabled_us total_connections total_items touch_hits touch_misses uptime version";
const SETTINGS: &str = "auth_enabled_ascii auth_enabled_sasl binding_protocol cas_enabled detail_enabled domain_socket dump_enabled evictions \
    flush_enabled idle_timeout inter item_size_max lru_crawler lru_maintainer_thread lru_segmented maxbytes maxconns maxconns_fast \
    num_threads reqs_per_event shutdown_command slab_automove slab_reassign ssl_enabled stat_key_prefix tcp_backlog tcpport \
    track_sizes udpport umask verbosity";

// The rows that a command tells.
fn rows(client: &mut Client, command: &str) -> HashMap<String, String> {
    client.send(&format!("{command}\r\n"));
    let lines = std::iter::from_fn(|| Some(client.line()).filter(|line| line != "END"));
    lines
        .map(|line| {
            let mut words = line.splitn(3, ' ').skip(1);
            (words.next().unwrap().to_string(), words.next().unwrap().to_string())
        })
        .collect()
}

#[test]
fn stats_have_the_rows_that_agents_read() {
    let running = in_memory(&[]);
    let mut client = Client::of(&running);
    for (command, names) in [("stats", ROWS), ("stats settings", SETTINGS)] {
        let told = rows(&mut client, command);
        let missing: Vec<_> = names.split_ascii_whitespace().filter(|name| !told.contains_key(*name)).collect();
        assert!(missing.is_empty(), "{command} lacks {missing:?}");
    }
    assert_eq!(rows(&mut client, "stats settings")["shards"], "8"); // (as many as were chosen)
    assert_eq!(client.ask("set key 0 0 1\r\nx\r\n"), "STORED");
    assert_eq!(client.ask("set brief 0 1 1\r\nx\r\n"), "STORED");
    thread::sleep(Duration::from_millis(2100));
    assert_eq!(client.value("brief"), None);
    assert_eq!(client.ask("flush_all\r\n"), "OK");
    assert_eq!(client.value("key"), None);
    client.send(&format!("get {}\r\n", "none ".repeat(1000)));
    assert_eq!(client.line(), "END");
    let told = rows(&mut client, "stats");
    for (name, value) in
        [("get_expired", "1"), ("get_flushed", "1"), ("conn_yields", "3"), ("connection_structures", "1")]
    {
        assert_eq!(told[name], value, "{name}");
    }
    let used: f64 = ["rusage_user", "rusage_system"].iter().map(|name| told[*name].parse::<f64>().unwrap()).sum();
    assert!(used > 0.0);
    assert!(running.stop());
}

#[test]
fn a_line_and_a_value_may_come_in_pieces() {
    let running = in_memory(&[]);
    let mut client = Client::of(&running);
    for byte in "set key 5 0 5\r\nva\r\ne\r\nget key\r\n".bytes() {
        client.0.get_mut().write_all(&[byte]).unwrap();
        thread::sleep(Duration::from_millis(1));
    }
    let lines: Vec<_> = (0..5).map(|_| client.line()).collect();
    assert_eq!(lines, ["STORED", "VALUE key 5 5", "va", "e", "END"]);
    assert!(running.stop());
}

#[test]
fn what_is_too_much_is_refused_and_harms_nothing_else() {
    let running = in_memory(&["--in-flight", "1", "--connections", "3", "--stall", "4", "--idle", "8"]);
    let mut client = Client::of(&running);
    assert_eq!(client.ask("set key 0 0 3\r\nold\r\n"), "STORED");
    let body = "x".repeat(1_048_576);
    assert_eq!(
        client.ask(&format!("set key 0 0 {}\r\n{body}\r\n", body.len())),
        "SERVER_ERROR object too large for cache"
    );
    assert_eq!(client.value("key"), None); // what is there would be older than the client believes
                                           // two bodies at once are more than may be in flight
    let mut slow = Client::of(&running);
    slow.send(&format!("set slow 0 0 900000\r\n{}", &body[..800_000]));
    thread::sleep(Duration::from_millis(200));
    let answer = client.ask(&format!("set key 0 0 500000\r\n{}\r\n", &body[..500_000]));
    assert_eq!(answer, "SERVER_ERROR out of memory storing object");
    let (_third, mut fourth) = (Client::of(&running), Client::of(&running));
    assert_eq!(fourth.line(), "ERROR Too many open connections");
    assert_eq!(slow.rest(), ""); // it stood still too long
    assert_eq!(client.rest(), ""); // it was idle too long
    let mut client = Client::of(&running);
    assert_eq!(client.ask("version\r\n").split(' ').next(), Some("VERSION"));
    let long = "y".repeat(5000);
    client.send(&long);
    assert_eq!(client.rest(), "");
    assert!(running.stop());
}

#[test]
fn a_client_that_does_not_read_is_not_read_from_and_let_go() {
    let running = in_memory(&["--stall", "1"]);
    let mut client = Client::of(&running);
    let body = "x".repeat(1_000_000);
    assert_eq!(client.ask(&format!("set key 0 0 {}\r\n{body}\r\n", body.len())), "STORED");
    let mut greedy = Client::of(&running);
    greedy.send(&"get key\r\n".repeat(1000));
    thread::sleep(Duration::from_millis(300));
    let free = running.server.in_flight.left();
    assert!(free > 250_000_000, "a gigabyte of answers waits, or half of it: {free} bytes are free");
    wait_until(|| running.server.sums().stall_kicks == 1);
    assert_eq!(client.ask("mn\r\n"), "MN");
    assert!(running.stop());
}

#[test]
fn who_is_being_answered_has_all_answers_when_the_server_ends() {
    let running = in_memory(&[]);
    let mut client = Client::of(&running);
    assert_eq!(client.ask("set key 0 0 5\r\nvalue\r\n"), "STORED");
    let idle = Client::of(&running);
    client.send(&"get key\r\n".repeat(2000));
    client.send("set last 0 0 4\r\nla");
    wait_until(|| running.server.sums().cmd_get >= 100);
    let mut writer = client.0.get_ref().try_clone().unwrap();
    let late = thread::spawn(move || {
        thread::sleep(Duration::from_millis(300));
        writer.write_all(b"st\r\n").unwrap();
    });
    let reads = thread::spawn(move || client.rest());
    assert!(running.stop());
    late.join().unwrap();
    let rest = reads.join().unwrap();
    assert_eq!(rest.matches("VALUE key 0 5\r\nvalue\r\nEND\r\n").count(), 2000);
    assert!(rest.ends_with("STORED\r\n"));
    drop(idle);
}

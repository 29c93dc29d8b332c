//! A host whose program is killed at random moments, by the thousand: `PROGRAM=path/to/recall cargo test --offline`.

use recall_client::{Error, Host, Value};
use std::fs;
use std::path::PathBuf;
use std::process::Command;
use std::sync::atomic::{AtomicBool, AtomicU64, Ordering};
use std::thread;
use std::time::Duration;

fn program() -> String {
    std::env::var("PROGRAM").expect("PROGRAM names the program")
}

fn room(name: &str) -> PathBuf {
    let room = std::env::temp_dir().join(format!("recall-client-{}-{name}", std::process::id()));
    let _ = fs::remove_dir_all(&room);
    fs::create_dir_all(&room).unwrap();
    room
}

fn host(room: &PathBuf) -> Host {
    Host::start(program(), room.join("journal"), room.join("seen")).unwrap()
}

/// How many programs are killed at least.
const KILLS: u64 = 20;

/// Kills each program that runs on the journal, again and again, until it is told to stop.
fn kill_again(journal: PathBuf, stops: &AtomicBool, kills: &AtomicU64) {
    let mut pause = 7;
    while !stops.load(Ordering::SeqCst) {
        pause = pause * 31 % 37;
        thread::sleep(Duration::from_millis(3 + pause));
        let pattern = format!("journal={}", journal.display());
        let is_killed = Command::new("pkill").args(["-9", "-f", "--", &pattern]).status().unwrap().success();
        kills.fetch_add(is_killed as u64, Ordering::SeqCst);
    }
}

/// Stops the kills, also where a check fails.
struct Stop<'a>(&'a AtomicBool);

impl Drop for Stop<'_> {
    fn drop(&mut self) {
        self.0.store(true, Ordering::SeqCst);
    }
}

#[test]
fn outputs_come_once_whoever_is_killed() {
    let room = room("kills");
    let (stops, kills) = (AtomicBool::new(false), AtomicU64::new(0));
    let (mut got, mut number) = (Vec::new(), 0);
    thread::scope(|scope| {
        let stop = Stop(&stops);
        scope.spawn(|| kill_again(room.join("journal"), &stops, &kills));
        let mut own = host(&room);
        own.open("a", &["echo"]).unwrap();
        while number < 300 || kills.load(Ordering::SeqCst) < KILLS {
            // From time to time the client is another process, which finds what was committed.
            if number % 50 == 49 {
                own.flush("a", 0).unwrap();
                let lost = own.release("a", 0).unwrap();
                drop(own);
                own = host(&room);
                let missed = own.missed().unwrap();
                let again: Vec<String> =
                    missed.iter().flat_map(|each| each.reply.outputs().map(String::from)).collect();
                assert_eq!(again, lost);
                got.extend(again);
                own.commit().unwrap();
            }
            own.post("a", 0, number, &format!("text \"{number}\"\n")).unwrap();
            if number % 3 == 0 {
                own.flush("a", 0).unwrap();
                got.extend(own.release("a", 0).unwrap());
                own.commit().unwrap();
            }
            number += 1;
        }
        own.flush("a", 0).unwrap();
        got.extend(own.release("a", 0).unwrap());
        drop(stop);
    });
    let due: Vec<String> = (0..number).map(|number| format!("text \"{number}\"\n")).collect();
    assert_eq!(got, due);
    fs::remove_dir_all(room).unwrap();
}

#[test]
fn calls_wait_for_what_was_missed() {
    let room = room("missed");
    let mut own = host(&room);
    assert!(own.is_new());
    own.open("a", &["echo"]).unwrap();
    drop(own);
    let mut own = host(&room);
    assert!(matches!(own.status("a", 0), Err(Error::Missed(1))));
    assert_eq!(own.missed().unwrap()[0].step.text("do"), Some("open"));
    assert!(!own.is_new());
    assert_eq!(own.status("a", 0).unwrap().get("up"), Some(&Value::Bool(true)));
    fs::remove_dir_all(room).unwrap();
}

#[test]
fn refusals_and_faults_are_told() {
    let room = room("faults");
    let mut own = host(&room);
    own.open("a", &["echo"]).unwrap();
    match own.post("a", 7, 0, "x") {
        Err(Error::Refused { name, .. }) => assert_eq!(name, "no-unit"),
        other => panic!("{other:?}"),
    }
    let replies = own.ask_all(&["x", r#"{"do":"flush","tenant":"a","unit":0}"#]).unwrap();
    assert_eq!((replies[0].text("no"), replies[1].number("count")), (Some("bad-line"), Some(0)));
    for count in ["x", "9"] {
        fs::write(room.join("other"), count).unwrap();
        assert!(matches!(Host::start(program(), room.join("journal"), room.join("other")), Err(Error::Io(_))));
    }
    assert!(matches!(
        Host::start("no program", room.join("j"), room.join("s")).unwrap().open("a", &["echo"]),
        Err(Error::Io(_))
    ));
    match Host::start(program(), room.join("none").join("j"), room.join("s")).unwrap().open("a", &["echo"]) {
        Err(Error::Ended { status: Some(1), complaint }) => assert!(complaint.contains("none"), "{complaint}"),
        other => panic!("{other:?}"),
    }
    fs::remove_dir_all(room).unwrap();
}

#[test]
fn lines_are_read() {
    let value =
        Value::parse(r#"{"at":[0,18446744073709551615],"a\u00e9\ud83d\ude00\n\"":null, "up" : true }"#).unwrap();
    assert_eq!(value.get("at"), Some(&Value::List(vec![Value::Number(0), Value::Number(u64::MAX)])));
    assert_eq!(value.get("a\u{e9}\u{1f600}\n\""), Some(&Value::Null));
    let deep = "[".repeat(100_000);
    for bad in
        ["", "{", "[1,]", "{\"a\"}", "\"\\x\"", "\"\\ud800\"", "1x", "[1 2]", "18446744073709551616", "{}{}", &deep]
    {
        assert_eq!(Value::parse(bad), None, "{bad:.20}");
    }
}

//! Makes the calls that stand on standard input, in fields between tabs, of the Rust recorder: see tests/tools/recorders.py.
#[path = "../../../recorders/domepeeler.rs"]
mod domepeeler;

use domepeeler::{Recording, Refused};
use std::io::Read;
use std::panic::{catch_unwind, AssertUnwindSafe};
use std::sync::Mutex;

/// Where the last panic came from.
static PLACE: Mutex<String> = Mutex::new(String::new());

fn number<N: std::str::FromStr>(word: &str) -> N
where
    N::Err: std::fmt::Debug,
{
    word.parse().expect("a number of this type")
}

fn begin(words: &[&str]) -> Result<Recording, Refused> {
    match words {
        ["stop", replicas] => Recording::new(number(replicas))?.stop(),
        ["stop_weak", replicas] => Recording::new(number(replicas))?.stop_weak(),
        ["stop", replicas, only] => Recording::only(number(replicas), number(only))?.stop(),
        [_, replicas] => Recording::new(number(replicas)),
        _ => Recording::only(number(words[1]), number(words[2])),
    }
}

/// Each line of the text behind a bar.
fn shown(text: &str) -> String {
    text.lines().map(|line| format!("| {line}\n")).collect::<String>() + "ok"
}

/// Whether it passes where the weak list specification alone is asked for, and if not, the first reason.
fn weak(recording: &Recording) -> String {
    match (recording.verdict(), recording.warnings()) {
        (Err(why), _) | (_, Err(why)) => format!("failed {why}"),
        (Ok(verdict), Ok(warnings)) if verdict.is_weak() => warnings.first().map_or("passes".into(), |first| format!("fails {first}")),
        (Ok(verdict), _) => format!("fails {verdict}"),
    }
}

fn call(recording: &mut Recording, words: &[&str]) -> Result<String, Refused> {
    let done = |n: u32| format!("ok {n}");
    match words[0] {
        "insert" => recording.insert(number(words[1]), words[2], number(words[3]), &words[4..]).map(done),
        "delete" => recording.delete(number(words[1]), words[2], &words[3..]).map(done),
        "read" => recording.read(number(words[1]), &words[2..]).map(done),
        "view" => recording.view(number(words[1]), &words[2..]).map(done),
        "received" => {
            recording.received(number(words[1]), number(words[2]), number(words[3])).map(|()| "ok".to_string())
        }
        "received_clock" => {
            let clock: Vec<u32> = words[4..].iter().map(|word| number(word)).collect();
            let done = recording.received_clock(number(words[1]), number(words[2]), &clock, number(words[3]));
            done.map(|()| "ok".to_string())
        }
        "clock" => recording.clock(number(words[1])).map(|clock| {
            let counts: Vec<String> = clock.iter().map(u32::to_string).collect();
            format!("ok {}", counts.join(" "))
        }),
        "delivered" => {
            let lists: Vec<&[&str]> = words[1..].split(|word| *word == "/").collect();
            recording.delivered(&lists).map(|()| "ok".to_string())
        }
        "note" => recording.note(words[1]).map(|()| "ok".to_string()),
        "lines" => Ok(format!("ok {}", recording.lines())),
        "warnings" => Ok(match recording.warnings() {
            Ok(warnings) => warnings.iter().map(|warning| format!("| {warning}\n")).collect::<String>() + "ok",
            Err(why) => format!("refused {why}"),
        }),
        "weak" => Ok(weak(recording)),
        "explain" | "explain_weak" => Ok(match if words[0] == "explain" { recording.explain() } else { recording.explain_weak() } {
            Ok(said) => shown(&said),
            Err(why) => format!("failed {why}"),
        }),
        "id_of" => Ok(match recording.ids().into_iter().find(|(name, _)| *name == words[1]) {
            Some((_, id)) => format!("ok {id}"),
            None => "none".to_string(),
        }),
        "save" => Ok(match recording.save(words[1]) {
            Ok(()) => "ok".to_string(),
            Err(why) => format!("failed {why}"),
        }),
        "judge" => Ok(match recording.judge() {
            Ok(report) => format!("report {}", report.trim()),
            Err(why) => format!("failed {why}"),
        }),
        _ => Ok(shown(recording.text())),
    }
}

fn answer(done: Result<String, Refused>) -> String {
    let kind = |why: &Refused| match why {
        Refused::NotCausal { .. } => "uncausal",
        _ if why.is_full() => "full",
        _ => "refused",
    };
    done.unwrap_or_else(|why| format!("{} {why}", kind(&why)))
}

/// What a call that panicked has said, in one line, if it did so where this file made the call.
fn stopped(why: Box<dyn std::any::Any + Send>) -> String {
    let place = PLACE.lock().map(|place| place.clone()).unwrap_or_default();
    let words = why.downcast_ref::<String>().map_or("no words", |words| words.as_str());
    let is_failed = std::env::var("DOMEPEELER").map_or(false, |program| words.starts_with(&program));
    match (place == file!(), is_failed) {
        (false, _) => format!("panicked in {place}: {words}"),
        (true, false) => format!("stopped {}", words.replace('\n', " / ")),
        (true, true) => format!("failed {words}"),
    }
}

fn main() {
    std::panic::set_hook(Box::new(|info| {
        if let (Ok(mut place), Some(at)) = (PLACE.lock(), info.location()) {
            *place = at.file().to_string();
        }
    }));
    let mut script = String::new();
    std::io::stdin().read_to_string(&mut script).expect("a script");
    let mut recording = Recording::new(1).expect("a recording");
    for line in script.split_terminator('\n') {
        let line = line.replace('\x1e', "\n");
        let words: Vec<&str> = line.split('\t').collect();
        let done = if ["new", "stop", "stop_weak"].contains(&words[0]) {
            begin(&words).map(|new| {
                recording.text(); // so that the old one may be dropped
                recording = new;
                "ok".to_string()
            })
        } else {
            match catch_unwind(AssertUnwindSafe(|| call(&mut recording, &words))) {
                Ok(done) => done,
                Err(why) => Ok(stopped(why)),
            }
        };
        println!("{}", answer(done));
    }
    recording.text();
}

//! Sessions that the recorder of Rust records and has judged by the library, in this process. Prints what came out, and with a word behind it, how many
//! sessions of five changes it records, and records and judges, in a second.
mod domepeeler;
mod domepeeler_native;

use domepeeler::Recording;
use std::time::Instant;

/// Five inserts of two replicas, each shown by both; one list may lack the last element.
fn session(wrong: bool) -> Recording {
    let mut recording = Recording::new(2).unwrap();
    let mut list: Vec<String> = Vec::new();
    for i in 0..5 {
        list.insert(0, format!("a{i}"));
        let n = recording.insert(i % 2, &list[0], 0, &list).unwrap();
        recording.received(1 - i % 2, i % 2, n).unwrap();
        let shown = if wrong && i == 4 { &list[1..] } else { &list[..] };
        recording.read(1 - i % 2, shown).unwrap();
    }
    recording
}

fn per_second(sessions: u32, mut one: impl FnMut()) -> f64 {
    let begin = Instant::now();
    (0..sessions).for_each(|_| one());
    f64::from(sessions) / begin.elapsed().as_secs_f64()
}

fn main() {
    domepeeler::judge_here(domepeeler_native::verdict);
    eprintln!("{}", domepeeler::judged_by());
    for wrong in [false, true] {
        let recording = session(wrong);
        println!("{}", recording.verdict().unwrap());
        println!("{}", recording.judge().unwrap());
    }
    let recording = session(false);
    println!("{}", recording.judge_by("/nowhere/else").unwrap_err());
    println!("{}", recording.text().len());
    if std::env::args().count() > 1 {
        let alone = per_second(20_000, || assert!(!session(false).text().is_empty()));
        let judged = per_second(20_000, || assert!(session(false).verdict().unwrap().is_accepted()));
        println!("{alone:.0} {judged:.0}");
    }
}

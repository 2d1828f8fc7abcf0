//! Records what the replicas of a list editor do and answer, and has Domepeeler judge it.
//!
//! Copy this file into your project and write `mod domepeeler;`, or depend on the crate in recorders/rust, which is made of it. For an
//! integration test copy it to tests/domepeeler/mod.rs: as tests/domepeeler.rs it would be a test of its own, without tests.
//! It needs the standard library alone. docs/recording.md says where the calls go.
//!
//! ```ignore
//! let none: &[&str] = &[];
//! let mut recording = Recording::new(2)?;
//! let n = recording.insert(0, "a", 0, &["a"])?; // replica 0 inserted a at position 0, and its list is now: a
//! recording.received(1, 0, n)?;                 // that operation was applied at replica 1
//! recording.delete(1, "a", none)?;              // replica 1 deleted a, and its list is now empty
//! recording.read(0, &["a"])?;                   // replica 0 read its list
//! recording.view(0, &["a"])?;                   // replica 0 showed this part of its list
//! recording.delivered(&[none, none])?;          // by now all has arrived everywhere, and both lists are empty
//! recording.assert_accepted();                  // in a test: asks the program, and panics with an explanation or warnings; or
//! recording.save("session.trace")?;             // the trace as a file, for tools/explain
//! println!("{}", recording.verdict().unwrap()); // asks the program: what it says, as an enum
//! println!("{}", recording.judge().unwrap());   // its report as JSON, with warnings: look at it, as it never fails by itself
//! println!("{}", recording.explain().unwrap()); // what that means, in words
//! ```
//!
//! An editor with a server that orders changes (Jupiter and its kin) promises the weak list specification alone, and is right with
//! `refused 3` or more. For such a one end with `recording.assert_weak()`: it passes where weak holds. `contents`, `position`, `doubled`
//! and `refused 2` still panic, and so do warnings.
//!
//! `Recording::new(2)?.stop()?` has the session judged after each call that takes a list, and panics in the call that answered wrong;
//! `stop_weak` in that after which weak doesn't hold.
//!
//! Where a test fails by itself, the trace of each recording that it drops then is saved, and standard error has the verdict. A recording that is
//! dropped while nothing has judged it, saved it or taken its text panics; so does one of which something was recorded since.
//!
//! The program judges, in a process of its own; after `judge_here(domepeeler_native::verdict)` the library does, in yours (domepeeler_native.rs).
//!
//! Replicas and positions are `usize`; operations' numbers, clocks and counts of changes are `u32`.
//!
//! Where updates have vector clocks, `received_clock` writes the receipts, and refuses what is not causal.
//!
//! Each call that a trace can't say is `Refused`, and leaves the recording as it was. Threads share a recording in a `Mutex`.
//!
//! An explanation names the line of code that made each call. Where a function of yours makes the calls for others, put
//! `#[track_caller]` before it, and it names theirs.
#![allow(dead_code)]

use std::cell::Cell;
use std::collections::{BTreeMap, BTreeSet, HashMap, HashSet};
use std::ffi::OsString;
use std::fmt::{self, Display, Write as _};
use std::fs::{self, File};
use std::io::{self, Write as _};
use std::panic::Location;
use std::path::{Path, PathBuf};
use std::process::{Command, Output, Stdio};
use std::sync::atomic::{AtomicBool, AtomicUsize, Ordering};
use std::sync::{Arc, Mutex};
use std::time::Duration;

const MOST_REPLICAS: usize = 16;
const MOST_ENTRIES: usize = 16384;
const MOST_INSERTS: usize = 4096;
const MOST_NAMES: usize = 4096;
const MOST_PLACES: usize = 262_144;
const MOST_BYTES: usize = 32;
const UUID_BYTES: usize = 36;
const HEAD_LINES: usize = 2; // of a trace, before its entries
const PROGRAM: &str = "domepeeler"; // where none is named
const LANGUAGE: &str = "rust"; // by its name for the explainer
const WARNINGS: &str = "\nWhat this verdict may hide\n"; // a title in the explainer's words
const LAST: &str = "\nThe list specifications\n"; // that of the last section there
const ONE_LOG: &str = "one replica's log is no recording: merge the logs first";
const FAILED_TRACES: &str = "failed_traces"; // the folder of traces that were not accepted in tests
const OF_DOCTESTS: &str = "rust_out"; // the name of each program of an example in documentation
const MOST_PARENTS: usize = 20; // that are looked at for the one that runs tests
const LETTERS_OF_HASH: usize = 16; // which cargo puts behind the name of a program of tests
const RUNS: &str = ".runs"; // in it: for each run of tests a folder, with a mark for each trace that it has saved
const MARK: &str = "mark"; // the ending of its name; in it stands the number of the process that saved the trace
const DAY: Duration = Duration::from_secs(24 * 60 * 60);
const MOST_LINKS: usize = 40; // that are followed, one behind the other
const MOST_NOTES: usize = 20;
const MOST_LETTERS: usize = 200; // of a note
const SIGNS: [char; 4] = ['@', ',', ':', '/']; // that an id may have, and no name
const MOST_DELIVERED: usize = 100; // calls of `delivered` that the explainer is told of, the last ones
const MOST_TRIES: usize = 100; // of saving where another process saves too
const MOST_TOLD: usize = 5; // deletes, or inserts, that warnings tell one by one
const MOST_CHANGES: usize = 3; // that warnings tell one by one of those that a replica lacks, or has made nothing of
const MORE_CHANGES: &str = "; if the update carried more than one change, say how many (`changes`)";

/// Why a call was refused: no trace can say it, or a limit of traces is reached.
#[derive(Clone, PartialEq, Eq)]
pub enum Refused {
    Replicas { replicas: usize },
    NoReplica { replica: usize, last: usize },
    NotOfThisLog { replica: usize, only: usize },
    Name { name: String },
    ShortFor { name: String, id: String },
    NoNumber { id: String },
    Position { position: usize },
    OperationZero,
    OwnReceipt { replica: usize },
    NotYet { author: usize, n: u32, have: u32 },
    Unknown,
    LongClock { replicas: usize },
    UnknownChange { replica: usize, count: u32, have: usize },
    NoChange { author: usize },
    Carried { changes: u32, most: u32 },
    NotCausal { replica: usize, change: (usize, u32), lacking: (usize, u32) },
    Lists { lists: usize, replicas: usize },
    Others,
    Stop,
    Note,
    Notes,
    EntriesFull { replica: usize },
    InsertsFull { replica: usize },
    LongResponse { names: usize },
    PlacesFull { replica: usize, places: usize },
}

impl Refused {
    /// Whether a limit of traces is reached: then end this session, and begin another.
    pub fn is_full(&self) -> bool {
        use Refused::*;
        matches!(self, EntriesFull { .. } | InsertsFull { .. } | LongResponse { .. } | PlacesFull { .. })
    }
}

impl Display for Refused {
    fn fmt(&self, f: &mut fmt::Formatter) -> fmt::Result {
        match self {
            Refused::Replicas { replicas } => write!(f, "replicas are 1 to {MOST_REPLICAS}, not {replicas}"),
            Refused::NoReplica { replica, last } => write!(f, "no replica {replica} among 0 to {last}"),
            Refused::NotOfThisLog { replica, only } => {
                write!(f, "this log is of replica {only} alone, not of {replica}")
            }
            Refused::Name { name } => write!(f, "name \"{}\" is not 1 to 32 of A-Z a-z 0-9 _ - . (an id may have @ , : and / too)", escaped(name)),
            Refused::ShortFor { name, id } => write!(f, "name \"{name}\" is already used for the id \"{}\"", escaped(id)),
            Refused::NoNumber { id } => {
                write!(f, "one replica's log can't give the id \"{}\" a short name, ", escaped(id))?;
                write!(f, "since each machine would give another")
            }
            Refused::Position { position } => write!(f, "position {position} is not a whole number from 0 to {}", u32::MAX),
            Refused::OperationZero => write!(f, "operation number 0 is not a whole number from 1 to {}", u32::MAX),
            Refused::OwnReceipt { replica } => write!(f, "replica {replica} receives no operation of its own"),
            Refused::NotYet { author, n, have } => {
                write!(f, "{author}.{n} cannot have arrived: replica {author} has {have} operations so far")
            }
            Refused::Unknown => {
                write!(f, "one replica's log does not know the changes of the others: ")?;
                write!(f, "send each operation's number, and call received")
            }
            Refused::LongClock { replicas } => write!(f, "a clock has a count for each of {replicas} replicas"),
            Refused::UnknownChange { replica, count, have } => {
                write!(f, "the clock counts {count} changes of replica {replica}, which has recorded {have}")
            }
            Refused::NoChange { author } => {
                write!(f, "this is an update of replica {author}, but its clock counts no change of replica {author}")
            }
            Refused::Carried { changes, most } => {
                write!(f, "an update carries 1 to {most} of the changes that its clock counts, not {changes}")
            }
            Refused::NotCausal { replica, change: (author, n), lacking: (other, lacking) } => {
                write!(f, "not causal: {author}.{n} was applied at replica {replica} before {other}.{lacking}, ")?;
                write!(f, "which replica {author} had seen; {other}.{lacking} must arrive first or in the same update: ")?;
                write!(f, "perhaps it was lost, or only the call for it is missing")?;
                let more = if other == author { MORE_CHANGES } else { "" };
                f.write_str(more)
            }
            Refused::Lists { lists, replicas } => {
                write!(f, "delivered takes one list for each of the {replicas} replicas, not {lists}")
            }
            Refused::Others => {
                write!(f, "one replica's log can't say that everything has arrived: the others are recorded elsewhere")
            }
            Refused::Stop => {
                write!(f, "one replica's log can't be judged after each call, but only when the logs are merged")
            }
            Refused::Note => write!(f, "a note is one line of 1 to {MOST_LETTERS} printable characters"),
            Refused::Notes => write!(f, "a recording has {MOST_NOTES} notes, the most that it takes"),
            Refused::EntriesFull { replica } => {
                write!(f, "replica {replica} has {MOST_ENTRIES} entries, the most that a trace takes")
            }
            Refused::InsertsFull { replica } => {
                write!(f, "replica {replica} has {MOST_INSERTS} inserts, the most that a trace takes")
            }
            Refused::LongResponse { names } => {
                write!(f, "a response of {names} names; a trace takes at most {MOST_NAMES}")
            }
            Refused::PlacesFull { replica, places } => {
                write!(f, "{places} names over the responses of replica {replica}; ")?;
                write!(f, "a trace takes at most {MOST_PLACES}")
            }
        }
    }
}

/// The same words, since a test that unwraps shows these.
impl fmt::Debug for Refused {
    fn fmt(&self, f: &mut fmt::Formatter) -> fmt::Result {
        Display::fmt(self, f)
    }
}

impl std::error::Error for Refused {}

/// An operation's name: its replica, and its number there, from 1.
pub type Operation = (usize, u32);

/// What the program says of a recording. Its words are those of the report, as `contents 2.1`.
#[must_use = "it says whether the recording is right"]
#[derive(Clone, Debug, PartialEq, Eq)]
pub enum Verdict {
    /// One order of all elements follows every response. Here is the first such order, and what that may hide.
    Accepted { order: Vec<String>, warnings: Vec<String> },
    /// As many responses as there are steps can't be right together, and any fewer can. With two, the weak list specification fails
    /// as well as the strong one; with more, it holds.
    Refused { steps: Vec<Step>, weak: bool },
    /// The response is not what its replica had by then.
    Contents { at: Operation },
    /// The element does not stand where it was asked for.
    Position { at: Operation },
    /// Two operations insert the same name; nothing else is judged.
    Doubled { first: Operation, again: Operation },
}

/// An operation whose response shows one element before another. The steps of a refusal lead round a cycle.
#[derive(Clone, Debug, PartialEq, Eq)]
pub struct Step {
    pub from: String,
    pub to: String,
    pub shown: Operation,
    pub response: Vec<String>,
}

impl Verdict {
    pub fn is_accepted(&self) -> bool {
        matches!(self, Verdict::Accepted { .. })
    }

    /// Whether the weak list specification holds, which is all that an editor with a server that orders changes promises.
    pub fn is_weak(&self) -> bool {
        matches!(self, Verdict::Accepted { .. } | Verdict::Refused { weak: true, .. })
    }

    /// The verdict of the report as text; of an accepted one without warnings.
    fn read(report: &str) -> Option<Verdict> {
        let lines: Vec<&str> = report.lines().collect();
        let words: Vec<&str> = lines.get(1)?.split(' ').collect();
        let after = |begin: &str| lines.iter().find_map(|line| line.strip_prefix(begin));
        let list = |names: &str| names.split_ascii_whitespace().map(str::to_string).collect();
        match words[..] {
            ["accepted"] => Some(Verdict::Accepted { order: list(after("order :")?), warnings: vec![] }),
            ["refused", count] => {
                let steps = lines.iter().filter_map(|line| line.strip_prefix("step "));
                let steps: Option<Vec<Step>> = steps.map(Step::read).collect();
                let steps = steps.filter(|steps| steps.len().to_string() == count)?;
                Some(Verdict::Refused { steps, weak: after("weak ")? == "yes" })
            }
            ["contents", at] => Some(Verdict::Contents { at: operation(at)? }),
            ["position", at] => Some(Verdict::Position { at: operation(at)? }),
            ["doubled", first, again] => Some(Verdict::Doubled { first: operation(first)?, again: operation(again)? }),
            _ => None,
        }
    }
}

impl Step {
    fn read(line: &str) -> Option<Step> {
        let (head, names) = line.split_once(" :")?;
        let response = names.split_ascii_whitespace().map(str::to_string).collect();
        match head.split(' ').collect::<Vec<&str>>()[..] {
            [from, to, shown] => Some(Step { from: from.into(), to: to.into(), shown: operation(shown)?, response }),
            _ => None,
        }
    }
}

impl Display for Verdict {
    fn fmt(&self, f: &mut fmt::Formatter) -> fmt::Result {
        match self {
            Verdict::Accepted { .. } => f.write_str("accepted"),
            Verdict::Refused { steps, .. } => write!(f, "refused {}", steps.len()),
            Verdict::Contents { at } => write!(f, "contents {}.{}", at.0, at.1),
            Verdict::Position { at } => write!(f, "position {}.{}", at.0, at.1),
            Verdict::Doubled { first, again } => write!(f, "doubled {}.{} {}.{}", first.0, first.1, again.0, again.1),
        }
    }
}

#[derive(Clone)]
struct Replica {
    entries: usize,
    operations: u32,
    inserts: usize,
    places: usize,
    /// Its operations that insert or delete.
    changes: Vec<u32>,
    /// How many operations of each other replica it has received, now and at each operation of its own.
    others: Arc<[u32]>,
    pasts: Vec<Arc<[u32]>>,
}

/// What became of ids that might come to the same name: those that are no names, and names that look like what these become.
#[derive(Clone, Default)]
struct Names {
    ids: HashMap<String, String>,
    short: HashMap<String, String>,
    /// The names among `ids`, in the order in which they came.
    order: Vec<String>,
}

/// Which calls that record were refused, but at a limit, where the session ends and the caller knows it: what they say is not recorded.
#[derive(Clone, Default)]
struct Refusals {
    /// How many they are, but for what was not causal; and the first of them.
    calls: usize,
    first: Option<Refused>,
    /// By replica and author the last change that was not causal there, if it has not come since, and why it was not.
    open: BTreeMap<(usize, usize), (u32, Refused)>,
}

impl Refusals {
    fn note(&mut self, why: &Refused, is_wrong: bool) {
        if let Refused::NotCausal { replica, change: (author, n), .. } = *why {
            let open = self.open.entry((replica, author)).or_insert((0, why.clone()));
            if n >= open.0 {
                *open = (n, why.clone());
            }
        } else if !why.is_full() || is_wrong {
            self.calls += 1;
            self.first.get_or_insert_with(|| why.clone());
        }
    }

    /// That there are some, a line each.
    fn told(&self) -> Vec<String> {
        let first = self.first.iter().map(|why| match self.calls {
            1 => format!("a call was refused, so what it says is not recorded: {why}"),
            calls => format!("{calls} calls were refused, so what they say is not recorded; the first: {why}"),
        });
        let open = self.open.values().take(1).map(|(_, why)| format!("a call was refused, and what it says never came: {why}"));
        first.chain(open).collect()
    }
}

/// What the program or the tool answers, as text: a `str`, whatever the verdict is. A test that doesn't look at it passes, so compilers warn of that.
#[derive(Clone, PartialEq, Eq)]
#[must_use = "it says whether the recording is right, and a test that doesn't look at it passes: end with assert_accepted()"]
pub struct Answer(String);

impl std::ops::Deref for Answer {
    type Target = str;

    fn deref(&self) -> &str {
        &self.0
    }
}

impl Display for Answer {
    fn fmt(&self, f: &mut fmt::Formatter) -> fmt::Result {
        f.pad(&self.0)
    }
}

impl fmt::Debug for Answer {
    fn fmt(&self, f: &mut fmt::Formatter) -> fmt::Result {
        fmt::Debug::fmt(&self.0, f)
    }
}

impl From<Answer> for String {
    fn from(answer: Answer) -> String {
        answer.0
    }
}

/// How many lines the text had when it was last saved, when a panic last told the verdict and the path, and when `assert_accepted` or the like
/// last passed; 0 where that never was.
#[derive(Default)]
struct Seen {
    saved: AtomicUsize,
    told: AtomicUsize,
    passed: AtomicUsize,
    /// Whether it was ever judged, saved or taken as text; and whether something was recorded, or refused, since then, or since it was copied.
    was_handed_on: AtomicBool,
    is_new: AtomicBool,
    /// Why it was not judged, or what was refused, the last time that one of these failed and none went well since.
    failed: Mutex<String>,
}

impl Seen {
    /// Somebody has it now, who may judge it.
    fn hand_on(&self) {
        self.was_handed_on.store(true, Ordering::Relaxed);
        self.is_new.store(false, Ordering::Relaxed);
    }

    fn fail(&self, why: &dyn Display) {
        if let Ok(mut failed) = self.failed.lock() {
            *failed = why.to_string();
        }
    }
}

impl Clone for Seen {
    fn clone(&self) -> Seen {
        let same = |count: &AtomicUsize| AtomicUsize::new(count.load(Ordering::Relaxed));
        Seen { saved: same(&self.saved), told: same(&self.told), passed: same(&self.passed), ..Seen::default() }
    }
}

thread_local! {
    /// How many traces of tests that failed this thread has saved since it last began a recording.
    static SAVED: Cell<usize> = const { Cell::new(0) };
}

/// A session of so many replicas, or the log that one of them keeps on its own machine.
#[derive(Clone)]
pub struct Recording {
    lines: String,
    /// Of each entry the line of code from which it was recorded.
    callers: Vec<&'static Location<'static>>,
    replicas: Vec<Replica>,
    only: Option<usize>,
    names: Names,
    notes: Vec<String>,
    /// Of each call of `delivered` the first and the last line of the trace that it wrote.
    deliveries: Vec<(usize, usize)>,
    refusals: Refusals,
    /// What the session must be after each call that takes a list, where that is asked for.
    goal: Option<Goal>,
    /// What is wrong with it, once it isn't so.
    stopped: Option<String>,
    seen: Seen,
}

/// Where a thread panics, the trace of a recording that is dropped is saved as `assert_accepted` saves it, if it has entries and was not saved;
/// and standard error tells the verdict and the path, unless the panic itself does. Nothing may panic then, as that would end the program.
/// Else it panics where something was recorded after `assert_accepted` or the like, and was not saved: nothing has judged that. So it does where
/// nobody has judged it, saved it or taken its text since something was recorded or refused; a copy, only since it was made. Where the session was
/// judged after each call, only what was refused counts.
impl Drop for Recording {
    fn drop(&mut self) {
        let (passed, saved) = (self.seen.passed.load(Ordering::Relaxed), self.seen.saved.load(Ordering::Relaxed));
        if !std::thread::panicking() && passed != 0 && passed != self.lines() && saved != self.lines() && self.goal.is_none() {
            panic!("something was recorded after the recording was judged, so it was not judged: move the assertion behind it, or repeat it");
        }
        let is_judged = self.stopped.is_some() || self.goal.is_some() && self.refusals.told().is_empty();
        if !std::thread::panicking() && self.seen.is_new.load(Ordering::Relaxed) && !is_judged {
            panic!("{}", self.unjudged());
        }
        let is_told = self.stopped.is_some() || self.seen.told.load(Ordering::Relaxed) == self.lines();
        let last = match self.callers.last() {
            Some(last) if std::thread::panicking() && !is_told => last,
            _ => return,
        };
        let mut told = self.verdict_told();
        if self.seen.saved.load(Ordering::Relaxed) != self.lines() {
            let before = SAVED.try_with(Cell::get).unwrap_or(0); // by this thread in the same panic
            let path = failed_trace(last);
            let path = if before == 0 { path } else { numbered(&path, before + 1) };
            told.push(self.save_failed(&path));
        }
        let lines: String = told.iter().map(|line| format!("{line}\n")).collect();
        let _ = write!(io::stderr(), "{lines}"); // where nobody hears it, nothing is to be done
    }
}

/// Which verdicts are right, and what the explainer is told of that.
type Goal = (fn(&Verdict) -> bool, &'static [&'static str]);

impl Recording {
    pub fn new(replicas: usize) -> Result<Recording, Refused> {
        if !(1..=MOST_REPLICAS).contains(&replicas) {
            return Err(Refused::Replicas { replicas });
        }
        let lines = format!("trace 1\nreplicas {replicas}\n");
        let others: Arc<[u32]> = vec![0; replicas].into();
        let new = Replica { entries: 0, operations: 0, inserts: 0, places: 0, changes: vec![], others, pasts: vec![] };
        this_run(); // whose number is known while cargo lives
        let callers = Vec::new();
        let names = Names::default();
        let replicas = vec![new; replicas];
        let (notes, deliveries, refusals, seen) = (vec![], vec![], Refusals::default(), Seen::default());
        let _ = SAVED.try_with(|saved| saved.set(0));
        Ok(Recording { lines, callers, replicas, only: None, names, notes, deliveries, refusals, goal: None, stopped: None, seen })
    }

    /// From now on the session is judged after each call that takes a list. The first after which it is not accepted panics, with the
    /// words of `explain`; its line is recorded. Later calls that record panic with the same words, and record nothing. Where the program
    /// can't be run, each such call panics with the reason. The log of one replica is refused.
    pub fn stop(self) -> Result<Recording, Refused> {
        self.stopping((Verdict::is_accepted, &[]))
    }

    /// The same for an editor that promises the weak list specification alone: it panics where weak doesn't hold.
    pub fn stop_weak(self) -> Result<Recording, Refused> {
        self.stopping((Verdict::is_weak, &["--weak"]))
    }

    fn stopping(mut self, goal: Goal) -> Result<Recording, Refused> {
        self.goal = Some(goal);
        if self.only.is_some() { Err(Refused::Stop) } else { Ok(self) }
    }

    /// The log of one replica of so many, on its own machine.
    pub fn only(replicas: usize, only: usize) -> Result<Recording, Refused> {
        let mut log = Recording::new(replicas)?;
        log.known(only)?;
        log.only = Some(only);
        Ok(log)
    }

    /// The replica inserted the name at the position and then had this list. Answers the operation's number.
    #[track_caller]
    pub fn insert<N: AsRef<str>>(
        &mut self,
        replica: usize,
        name: &str,
        position: usize,
        response: &[N],
    ) -> Result<u32, Refused> {
        self.go_on();
        let n = self.operation(replica, "ins", Some((name, Some(position))), response)?;
        self.check_answer();
        Ok(n)
    }

    /// The replica deleted the name and then had this list. Answers the operation's number.
    #[track_caller]
    pub fn delete<N: AsRef<str>>(&mut self, replica: usize, name: &str, response: &[N]) -> Result<u32, Refused> {
        self.go_on();
        let n = self.operation(replica, "del", Some((name, None)), response)?;
        self.check_answer();
        Ok(n)
    }

    /// The replica read its list. Answers the operation's number.
    #[track_caller]
    pub fn read<N: AsRef<str>>(&mut self, replica: usize, response: &[N]) -> Result<u32, Refused> {
        self.go_on();
        let n = self.operation(replica, "read", None, response)?;
        self.check_answer();
        Ok(n)
    }

    /// The replica showed this part of its list, the window of an editor say. Answers the operation's number.
    #[track_caller]
    pub fn view<N: AsRef<str>>(&mut self, replica: usize, part: &[N]) -> Result<u32, Refused> {
        self.go_on();
        let n = self.operation(replica, "view", None, part)?;
        self.lines.replace_range(.."trace 1".len(), "trace 2");
        self.check_answer();
        Ok(n)
    }

    /// The author's operation n, and with it all that the author had seen by then, was applied at the replica.
    #[track_caller]
    pub fn received(&mut self, replica: usize, author: usize, n: u32) -> Result<(), Refused> {
        self.go_on();
        let done = self.received_now(replica, author, n);
        self.arrived(replica, done)
    }

    #[track_caller]
    fn received_now(&mut self, replica: usize, author: usize, n: u32) -> Result<(), Refused> {
        self.acts(replica)?;
        self.known(author)?;
        if n == 0 {
            return Err(Refused::OperationZero);
        }
        if author == replica {
            return Err(Refused::OwnReceipt { replica });
        }
        let have = self.replicas[author].operations;
        if n > have && self.only.is_none() {
            return Err(Refused::NotYet { author, n, have });
        }
        self.room(replica)?;
        self.receipt(replica, author, n);
        Ok(())
    }

    /// The author's update with this vector clock was applied at the replica: it carries the last of the author's changes that the
    /// clock counts, or so many of the last. The clock has for each replica how many of its inserts and deletes the author had
    /// seen, its own with the carried ones among them. Writes the receipt, unless the replica has it already.
    #[track_caller]
    pub fn received_clock(
        &mut self,
        replica: usize,
        author: usize,
        clock: &[u32],
        changes: u32,
    ) -> Result<(), Refused> {
        self.go_on();
        let done = self.received_clock_now(replica, author, clock, changes);
        self.arrived(replica, done)
    }

    #[track_caller]
    fn received_clock_now(&mut self, replica: usize, author: usize, clock: &[u32], changes: u32) -> Result<(), Refused> {
        self.acts(replica)?;
        self.known(author)?;
        if author == replica {
            return Err(Refused::OwnReceipt { replica });
        }
        self.check_clock(clock)?;
        let most = clock[author];
        if most == 0 {
            return Err(Refused::NoChange { author });
        }
        if !(1..=most).contains(&changes) {
            return Err(Refused::Carried { changes, most });
        }
        let carried = &self.replicas[author].changes[(most - changes) as usize..most as usize];
        let has = self.has(replica);
        let last = carried[carried.len() - 1];
        for &n in carried.iter().filter(|&&n| n > has[author]) {
            self.check_causal(replica, author, n, clock, &has, carried[0])?;
        }
        if last > has[author] {
            self.room(replica)?;
            self.receipt(replica, author, last);
        }
        Ok(())
    }

    /// By now everything has arrived everywhere, and each replica, from 0 upward, shows its list of these. Writes for each replica
    /// the receipts that are missing, and a read. So a change that an editor has lost, or still holds back, is `contents` there. The
    /// recording keeps which lines it wrote.
    #[track_caller]
    pub fn delivered<L: AsRef<[N]>, N: AsRef<str>>(&mut self, lists: &[L]) -> Result<(), Refused> {
        self.go_on();
        let done = self.delivered_now(lists);
        self.noted(done)?;
        self.check_answer();
        Ok(())
    }

    #[track_caller]
    fn delivered_now<L: AsRef<[N]>, N: AsRef<str>>(&mut self, lists: &[L]) -> Result<(), Refused> {
        if self.only.is_some() {
            return Err(Refused::Others);
        }
        let replicas = self.replicas.len();
        if lists.len() != replicas {
            return Err(Refused::Lists { lists: lists.len(), replicas });
        }
        let before = self.mark();
        for (replica, list) in lists.iter().enumerate() {
            if let Err(why) = self.delivered_at(replica, list.as_ref()) {
                self.undo(before);
                return Err(why);
            }
        }
        self.deliveries.push((before.entries + HEAD_LINES + 1, self.lines()));
        self.refusals.open.values_mut().for_each(|open| open.0 = u32::MAX); // it stays so: none of these receipts brought it
        Ok(())
    }

    /// Keeps a word of yours on the whole recording, such as the seed of a random session: `save` writes it, and `explain` names it.
    pub fn note(&mut self, text: &str) -> Result<(), Refused> {
        let letters = text.chars().count();
        if !(1..=MOST_LETTERS).contains(&letters) || !text.chars().all(is_printable) {
            return Err(Refused::Note);
        }
        if self.notes.len() == MOST_NOTES {
            return Err(Refused::Notes);
        }
        self.notes.push(text.to_string());
        Ok(())
    }

    /// How many inserts and deletes of each replica this one has: the vector clock of an update that it makes now.
    pub fn clock(&self, replica: usize) -> Result<Vec<u32>, Refused> {
        self.acts(replica)?;
        if self.only.is_some() {
            return Err(Refused::Unknown);
        }
        let pairs = self.replicas.iter().zip(self.has(replica));
        Ok(pairs.map(|(of, have)| of.changes.partition_point(|&n| n <= have) as u32).collect())
    }

    /// Each id that is no name itself: its name in the trace, and the id.
    pub fn ids(&self) -> Vec<(&str, &str)> {
        let pairs = self.names.order.iter().map(|name| (name.as_str(), self.names.ids[name].as_str()));
        pairs.filter(|(name, id)| name != id).collect()
    }

    /// The trace; of one replica's log the text that merge.py takes.
    pub fn text(&self) -> &str {
        self.seen.hand_on();
        &self.lines
    }

    /// How many lines the text has. A debugger stops behind line N at the statement in
    /// `if recording.lines() == N { eprintln!("here") }`.
    pub fn lines(&self) -> usize {
        self.callers.len() + HEAD_LINES
    }

    /// Writes the text into a file of this name; and first, into one with `.lines` behind the name, how many lines it has, so that
    /// the tools notice where the end of the file is lost, the notes, which lines `delivered` wrote, and from where in your code each
    /// line was recorded. Each appears whole, or what stood there stays. A second recording that is saved under the same name takes the place of
    /// the first, without a word: give each that you want to keep its own. A pipe or a device has no such file beside it.
    pub fn save(&self, path: impl AsRef<Path>) -> io::Result<()> {
        let path = path.as_ref();
        if path.as_os_str().is_empty() {
            fs::metadata(path)?; // it is no name of this folder
        }
        if matches!(fs::metadata(path), Ok(about) if !about.is_file()) {
            File::create(path)?.write_all(self.lines.as_bytes())?;
        } else {
            let mut beside = path.as_os_str().to_owned();
            beside.push(".lines");
            self.save_both(path, Path::new(&beside), &self.beside())?;
        }
        self.seen.saved.store(self.lines(), Ordering::Relaxed);
        self.seen.hand_on();
        Ok(())
    }

    /// What is wrong with dropping it, in words.
    fn unjudged(&self) -> String {
        let mut told = match (self.goal.is_some(), self.seen.was_handed_on.load(Ordering::Relaxed)) {
            (true, _) => self.refusals.told().join("\n"),
            (_, true) => "something was recorded, or refused, since the recording was judged, saved or taken as text, and nothing has judged that".to_string(),
            _ => "nothing has judged this recording, saved it or taken its text, so nobody knows whether it is right".to_string(),
        };
        told += ": end with recording.assert_accepted()";
        let here = std::env::current_dir().unwrap_or_default();
        if let Some(last) = self.callers.last() {
            told += &format!(" behind {}", place(last, &here));
        }
        match self.seen.failed.lock() {
            Ok(failed) if !failed.is_empty() => format!("{told}. The last call failed: {failed}"),
            _ => told,
        }
    }

    /// Writes the text, and what stands beside it; again where another process has put its own there meanwhile, beside this trace.
    fn save_both(&self, path: &Path, beside: &Path, told: &str) -> io::Result<()> {
        for _ in 0..MOST_TRIES {
            let trace = Fresh::written(path, &self.lines)?;
            Fresh::written(beside, told)?.put()?;
            trace.put()?;
            if !matches!(fs::read(beside), Ok(there) if there != told.as_bytes()) {
                return Ok(());
            }
            let since = std::time::SystemTime::now().duration_since(std::time::UNIX_EPOCH).map_or(0, |since| since.subsec_nanos());
            std::thread::sleep(Duration::from_micros(u64::from(since / 100 % 10_000))); // by chance, so that they don't keep step
        }
        Err(io::Error::new(io::ErrorKind::AlreadyExists, "another process saves there too"))
    }

    /// What an accepted verdict on this recording may hide, a line each, with the places in your code: that a call was refused, a change that
    /// never arrived, a replica that shows nothing, a delete of what nothing inserts. It asks no program, and takes time linear in the text.
    pub fn warnings(&self) -> Result<Vec<String>, String> {
        if self.only.is_some() {
            return Err(ONE_LOG.to_string());
        }
        Ok([self.refusals.told(), Warned::of(self).all()].concat())
    }

    /// The program's report on this recording, as JSON. It has one more key, `warnings`: where the verdict is accepted, or weak holds, a list
    /// of what that may hide, and else whether calls were refused. The program is that of $DOMEPEELER, or `domepeeler`.
    pub fn judge(&self) -> Result<Answer, String> {
        self.judge_by(&named("DOMEPEELER", PROGRAM))
    }

    /// The report of the program at this path.
    pub fn judge_by(&self, program: &str) -> Result<Answer, String> {
        self.heard(self.report_by(program)).map(Answer)
    }

    /// What was answered of the recording, which somebody has by that; or why not.
    fn heard<T>(&self, answer: Result<T, String>) -> Result<T, String> {
        match &answer {
            Ok(_) => self.seen.hand_on(),
            Err(why) => self.seen.fail(why),
        }
        answer
    }

    fn report_by(&self, program: &str) -> Result<String, String> {
        let done = self.ask(program, &["verdict", "--json", "-"], "DOMEPEELER to the program's path", "no report")?;
        if !done.stdout.starts_with(b"{") {
            return Err(ended(program, &done, "no report"));
        }
        let mut report = printed(program, &done)?;
        let end = report.rfind('}').filter(|_| report.contains("\"verdict\":\""));
        let end = end.ok_or_else(|| format!("{program} printed a report without a verdict"))?;
        let is_accepted = report.contains("\"verdict\":\"accepted\"");
        self.check_agrees(program, &done, is_accepted, &report, "\"operations\":", ",")?;
        let is_passing = is_accepted || report.contains("\"weak\":true");
        let warnings = if is_passing { self.warnings()? } else { self.refusals.told() };
        let told: Vec<String> = warnings.iter().map(|warning| quoted(warning)).collect();
        report.insert_str(end, &format!(",\"warnings\":[{}]", told.join(",")));
        Ok(report)
    }

    /// The program's verdict on this recording. The program is that of $DOMEPEELER, or `domepeeler`.
    pub fn verdict(&self) -> Result<Verdict, String> {
        self.verdict_by(&named("DOMEPEELER", PROGRAM))
    }

    /// The verdict of the program at this path.
    pub fn verdict_by(&self, program: &str) -> Result<Verdict, String> {
        let mut verdict = self.heard(self.verdict_alone(program))?;
        if let Verdict::Accepted { warnings, .. } = &mut verdict {
            *warnings = self.warnings()?;
        }
        Ok(verdict)
    }

    /// The same without warnings.
    fn verdict_alone(&self, program: &str) -> Result<Verdict, String> {
        let done = self.ask(program, &["verdict", "-"], "DOMEPEELER to the program's path", "no report")?;
        let read = Verdict::read(&String::from_utf8_lossy(&done.stdout));
        let verdict = read.ok_or_else(|| ended(program, &done, "no report"))?;
        let (is_accepted, head) = (verdict.is_accepted(), printed(program, &done)?);
        self.check_agrees(program, &done, is_accepted, head.lines().next().unwrap_or(""), " operations ", " ")?;
        Ok(verdict)
    }

    /// Panics again where the session has stopped.
    #[track_caller]
    fn go_on(&self) {
        if let Some(words) = &self.stopped {
            panic!("{words}");
        }
    }

    /// Panics where the session was to stop in the call that answered wrong, and this one did, or was not judged.
    #[track_caller]
    fn check_answer(&mut self) {
        let (is_right, goal) = match self.goal {
            Some(goal) => goal,
            None => return,
        };
        let verdict = match self.verdict_alone(&named("DOMEPEELER", PROGRAM)) {
            Ok(verdict) if is_right(&verdict) => return,
            Ok(verdict) => verdict,
            Err(why) => panic!("{why}"),
        };
        let said = self.explained_by(&explainer(), goal);
        let untold = |why| format!("The recording is not accepted: {verdict}. There is no explanation: {why}");
        self.stopped = Some(said.map_or_else(untold, |said| said.trim_end().to_string()));
        self.go_on();
    }

    /// For a test: panics unless the program accepts the recording and no warning says what that may hide, with the warnings and the words
    /// of `explain`. It judges what is recorded by then: what comes later wants another call, without which the recording panics when it is
    /// dropped. It panics because `cargo test` hides what a test that passes writes to standard error. The trace is then saved below the
    /// folder `failed_traces`, by the name of the test, and where no tool explains it, the verdict stands in the place of the words. Where
    /// another run of tests that is still at work has saved one by this name, that stays, and this one has `.run` and numbers in its name. Of a
    /// recording of nothing it panics with the warning alone, and saves no trace.
    #[track_caller]
    pub fn assert_accepted(&self) {
        self.assert_right(Verdict::is_accepted, &[]);
    }

    /// For a test of an editor that promises the weak list specification alone, as one with a server that orders changes: the same, but it
    /// passes too where weak holds and strong doesn't, as with `refused 3` or more.
    #[track_caller]
    pub fn assert_weak(&self) {
        self.assert_right(Verdict::is_weak, &["--weak"]);
    }

    /// Panics unless the verdict is right, and nothing is hidden by it. The goal is what the tool is told of it.
    #[track_caller]
    fn assert_right(&self, is_right: fn(&Verdict) -> bool, goal: &[&str]) {
        let path = failed_trace(Location::caller());
        let (verdict, warnings) = match (self.verdict(), self.warnings()) {
            (Err(why), _) | (_, Err(why)) => panic!("{why}"),
            (Ok(verdict), Ok(warnings)) => (verdict, warnings.join("\n")),
        };
        let unsure = match is_right(&verdict) {
            false => String::new(),
            true if warnings.is_empty() => {
                if !matches!(verdict, Verdict::Accepted { .. }) {
                    eprintln!("weak holds, strong doesn't");
                }
                self.seen.passed.store(self.lines(), Ordering::Relaxed);
                return;
            }
            true if self.callers.is_empty() => panic!("{warnings}"),
            true => format!("{warnings}\n\n"),
        };
        let said = unsure + &self.explained(&explainer(), goal).unwrap_or_else(|why| format!("{verdict}\n{why}\n"));
        let saved = self.save_failed(&path);
        self.seen.told.store(self.lines(), Ordering::Relaxed);
        panic!("{said}\n{saved}");
    }

    /// The verdict as a line, and one for each warning. A thread of its own asks, so that this one does not panic.
    fn verdict_told(&self) -> Vec<String> {
        let asked = std::thread::scope(|scope| match std::thread::Builder::new().spawn_scoped(scope, || self.verdict()) {
            Ok(asking) => asking.join().unwrap_or_else(|_| Err("who asked panicked".to_string())),
            Err(why) => Err(why.to_string()),
        });
        match asked {
            Ok(Verdict::Accepted { warnings, .. }) if !warnings.is_empty() => {
                let hidden = warnings.iter().map(|warning| format!("  {warning}"));
                std::iter::once("The recording is accepted, and may hide something:".to_string()).chain(hidden).collect()
            }
            Ok(Verdict::Accepted { .. }) => vec!["The recording is accepted".to_string()],
            Ok(verdict) => vec![format!("The recording is not accepted: {verdict}")],
            Err(why) => vec![format!("The recording was not judged: {why}")],
        }
    }

    /// Saves the trace in a folder that git does not look into. Answers in words where it is.
    fn save_failed(&self, path: &Path) -> String {
        let _ = SAVED.try_with(|saved| saved.set(saved.get() + 1));
        let ignored = Path::new(FAILED_TRACES).join(".gitignore");
        let saved = fs::create_dir_all(FAILED_TRACES)
            .and_then(|()| if ignored.exists() { Ok(()) } else { Fresh::written(&ignored, "*\n")?.put() })
            .and_then(|()| {
                let path = marked(path);
                self.save(&path).map(|()| path)
            });
        match saved {
            Ok(path) => format!("The trace is saved: {}", shown(&path)),
            Err(why) => format!("The trace can't be saved: {}: {why}. It is:\n{}", shown(path), self.lines),
        }
    }

    /// What the report means, in words, with the lines of your code, and at the end the ids of the numbered names and the notes. The
    /// tool is that of $DOMEPEELER_EXPLAIN, or `domepeeler-explain`, beside the program of $DOMEPEELER or on the PATH.
    pub fn explain(&self) -> Result<Answer, String> {
        self.explain_by(&explainer())
    }

    /// The same where the editor promises the weak list specification alone: it says first where that holds, and what comes with it.
    pub fn explain_weak(&self) -> Result<Answer, String> {
        self.explained(&explainer(), &["--weak"]).map(Answer)
    }

    /// The words of the tool at this path.
    pub fn explain_by(&self, explainer: &str) -> Result<Answer, String> {
        self.explained(explainer, &[]).map(Answer)
    }

    fn explained(&self, explainer: &str, goal: &[&str]) -> Result<String, String> {
        self.heard(self.explained_by(explainer, goal))
    }

    fn explained_by(&self, explainer: &str, goal: &[&str]) -> Result<String, String> {
        let last = &self.deliveries[self.deliveries.len().saturating_sub(MOST_DELIVERED)..];
        let ranges: Vec<String> = last.iter().map(|(from, to)| format!("{from}-{to}")).collect();
        let mut words = [goal, &["--language", LANGUAGE]].concat();
        words.extend(ranges.iter().flat_map(|range| ["--delivered", range]));
        let refusals = self.refusals.told();
        words.extend(refusals.iter().flat_map(|told| ["--refused", told]));
        words.push("-");
        let done = self.ask(explainer, &words, "DOMEPEELER_EXPLAIN to the tool's path", "no words")?;
        if done.stdout.is_empty() {
            return Err(ended(explainer, &done, "no words"));
        }
        let said = printed(explainer, &done)?;
        let words: HashSet<&str> = said.split(|letter: char| !letter.is_ascii_alphanumeric()).collect();
        let ids = self.ids().into_iter().filter(|(name, _)| words.contains(name) && name.starts_with("long"));
        let long = section("Ids that were too long for a name", ids.map(|(name, id)| format!("{name}: {}", escaped(id))));
        let noted = section("Your notes", self.notes.iter().cloned());
        let code = section("In your code", self.places_named(&said));
        let told = self.with_places(&said);
        let (words, last) = told.split_at(told.rfind(LAST).unwrap_or(told.len()));
        Ok(words.to_string() + &code + &long + &noted + last)
    }

    /// The words, with the place behind each line that stands in brackets in what the verdict may hide.
    fn with_places(&self, said: &str) -> String {
        let here = std::env::current_dir().unwrap_or_default();
        let from = said.find(WARNINGS).map_or(said.len(), |at| at + WARNINGS.len());
        let to = said[from..].find("\n\n").map_or(said.len(), |at| from + at);
        let mut told = said[..from].to_string();
        for (count, part) in said[from..to].split("line ").enumerate() {
            let is_named = count > 0 && (told.ends_with('(') || told.ends_with("(in "));
            let line = part.split_once(')').filter(|_| is_named).and_then(|(digits, rest)| Some((digits.parse().ok()?, rest)));
            let caller = line.and_then(|(line, rest): (usize, _)| Some((line, self.callers.get(line.checked_sub(HEAD_LINES + 1)?)?, rest)));
            told += if count > 0 { "line " } else { "" };
            match caller {
                Some((line, caller, rest)) => told += &format!("{line}, {}){rest}", place(caller, &here)),
                None => told += part,
            }
        }
        told + &said[to..]
    }

    /// The places of the lines of the trace that the words name, each once with all its lines.
    fn places_named(&self, said: &str) -> impl Iterator<Item = String> {
        let named = lines_named(said);
        let mut found: Vec<(String, Vec<usize>)> = Vec::new();
        let mut at: HashMap<String, usize> = HashMap::new();
        for (line, place) in self.places().filter(|(line, _)| named.contains(line)) {
            let of = *at.entry(place.clone()).or_insert(found.len());
            if of == found.len() {
                found.push((place, vec![]));
            }
            found[of].1.push(line);
        }
        let told = |(place, lines): (String, Vec<usize>)| format!("line{} {}: {place}", plural(lines.len()), joined(&lines));
        found.into_iter().map(told)
    }

    /// By line of the trace the place in your code.
    fn places(&self) -> impl Iterator<Item = (usize, String)> + '_ {
        let here = std::env::current_dir().unwrap_or_default();
        self.callers.iter().enumerate().map(move |(at, caller)| (at + HEAD_LINES + 1, place(caller, &here)))
    }

    /// What stands in the file beside the trace.
    fn beside(&self) -> String {
        let notes: String = self.notes.iter().map(|note| format!("note {note}\n")).collect();
        let deliveries: String = self.deliveries.iter().map(|(from, to)| format!("delivered {from} {to}\n")).collect();
        let refusals: String = self.refusals.told().iter().map(|told| format!("refused {told}\n")).collect();
        let places: String = self.places().map(|(line, place)| format!("{line} {place}\n")).collect();
        format!("{}\nlanguage {LANGUAGE}\n{notes}{deliveries}{refusals}{places}", self.lines())
    }

    /// How a program ended, by itself and with a status that says that it has answered, which is else lacking.
    fn ask(&self, program: &str, words: &[&str], named: &str, lacking: &str) -> Result<Output, String> {
        if self.only.is_some() {
            return Err(ONE_LOG.to_string());
        }
        if let Some(done) = ended_here(program, words, &self.lines) {
            return if matches!(done.status.code(), Some(0 | 1)) { Ok(done) } else { Err(ended(program, &done, lacking)) };
        }
        let shown = escaped(program);
        let failed = |why: io::Error| format!("{shown} cannot be run ({why}): set {named}");
        let mut child = Command::new(program)
            .args(words)
            .stdin(Stdio::piped())
            .stdout(Stdio::piped())
            .stderr(Stdio::piped())
            .spawn()
            .map_err(failed)?;
        let input = child.stdin.take();
        // In a thread, as another program than the right one may write before it has read all; where it ends early, its status says why.
        let (done, written) = std::thread::scope(|scope| {
            let writer = scope.spawn(|| input.map(|mut input| input.write_all(self.lines.as_bytes())));
            (child.wait_with_output(), writer.join())
        });
        let done = done.map_err(failed)?;
        match (done.status.code(), written) {
            (Some(0 | 1), Ok(Some(Ok(())))) => Ok(done),
            (Some(0 | 1), _) if done.stdout.is_empty() => Ok(done),
            (Some(status @ (0 | 1)), _) => Err(format!("{} ended with status {status} before it had read the recording", escaped(program))),
            _ => Err(ended(program, &done, lacking)),
        }
    }

    /// A report counts the recording's operations, between these words; one that accepts comes with status 0, any other with 1.
    fn check_agrees(&self, program: &str, done: &Output, accepts: bool, report: &str, before: &str, behind: &str) -> Result<(), String> {
        let operations: u32 = self.replicas.iter().map(|own| own.operations).sum();
        if accepts == done.status.success() && report.contains(&format!("{before}{operations}{behind}")) {
            return Ok(());
        }
        let status = i32::from(!done.status.success());
        Err(format!("{} ended with status {status} and printed a report that is not on this recording", escaped(program)))
    }

    /// The receipts that the replica lacks, each of the last change of an author, and a read of its list.
    #[track_caller]
    fn delivered_at<N: AsRef<str>>(&mut self, replica: usize, list: &[N]) -> Result<(), Refused> {
        for author in (0..self.replicas.len()).filter(|&author| author != replica) {
            let last = self.replicas[author].changes.last().copied().unwrap_or(0);
            if last > self.replicas[replica].others[author] {
                self.room(replica)?;
                self.receipt(replica, author, last);
            }
        }
        self.said(replica, "read", None, list).map(drop)
    }

    /// Where the recording stands now.
    fn mark(&self) -> Mark {
        let of = |own: &Replica| (own.entries, own.operations, own.places, Arc::clone(&own.others));
        let replicas = self.replicas.iter().map(of).collect();
        Mark { bytes: self.lines.len(), entries: self.callers.len(), names: self.names.order.len(), replicas }
    }

    /// Forgets the receipts and reads since then.
    fn undo(&mut self, mark: Mark) {
        self.lines.truncate(mark.bytes);
        self.callers.truncate(mark.entries);
        self.names.forget(mark.names);
        for (own, (entries, operations, places, others)) in self.replicas.iter_mut().zip(mark.replicas) {
            own.pasts.truncate(operations as usize);
            (own.entries, own.operations, own.places, own.others) = (entries, operations, places, others);
        }
    }

    fn known(&self, replica: usize) -> Result<(), Refused> {
        let last = self.replicas.len() - 1;
        if replica > last { Err(Refused::NoReplica { replica, last }) } else { Ok(()) }
    }

    fn acts(&self, replica: usize) -> Result<(), Refused> {
        self.known(replica)?;
        match self.only {
            Some(only) if only != replica => Err(Refused::NotOfThisLog { replica, only }),
            _ => Ok(()),
        }
    }

    fn room(&self, replica: usize) -> Result<(), Refused> {
        if self.replicas[replica].entries == MOST_ENTRIES { Err(Refused::EntriesFull { replica }) } else { Ok(()) }
    }

    #[track_caller]
    fn line(&mut self, words: fmt::Arguments) {
        self.seen.is_new.store(true, Ordering::Relaxed);
        writeln!(self.lines, "{words}").expect("a String takes each line");
        self.callers.push(Location::caller());
    }

    /// Records it, or leaves all as it was, the names of ids among it.
    #[track_caller]
    fn operation<N: AsRef<str>>(
        &mut self,
        replica: usize,
        kind: &str,
        subject: Option<(&str, Option<usize>)>,
        response: &[N],
    ) -> Result<u32, Refused> {
        let before = self.names.order.len();
        let done = self.said(replica, kind, subject, response);
        if done.is_err() {
            self.names.forget(before);
        }
        self.noted(done)
    }

    /// What a call answers that records. If it is refused, that is remembered.
    fn noted<T>(&mut self, done: Result<T, Refused>) -> Result<T, Refused> {
        match &done {
            Ok(_) => self.seen.fail(&""),
            Err(why) => {
                let is_wrong = self.is_wrong(why);
                self.refusals.note(why, is_wrong);
                self.seen.fail(why);
                if is_wrong || !why.is_full() {
                    self.seen.is_new.store(true, Ordering::Relaxed);
                }
            }
        }
        done
    }

    /// Whether a response that reaches a limit has more names than were inserted, with its own perhaps: it is wrong, whatever comes.
    fn is_wrong(&self, why: &Refused) -> bool {
        let names = match *why {
            Refused::LongResponse { names } => names,
            Refused::PlacesFull { replica, places } => places - self.replicas[replica].places,
            _ => 0,
        };
        self.only.is_none() && names > self.replicas.iter().map(|own| own.inserts).sum::<usize>() + 1
    }

    /// The same of a call that says what has arrived at a replica. What was not causal there, and has come by now, is open no more.
    fn arrived(&mut self, replica: usize, done: Result<(), Refused>) -> Result<(), Refused> {
        if let (Ok(()), Some(own)) = (&done, self.replicas.get(replica)) {
            self.refusals.open.retain(|&(at, author), (n, _)| at != replica || *n > own.others[author]);
        }
        self.noted(done)
    }

    #[track_caller]
    fn said<N: AsRef<str>>(
        &mut self,
        replica: usize,
        kind: &str,
        subject: Option<(&str, Option<usize>)>,
        response: &[N],
    ) -> Result<u32, Refused> {
        self.acts(replica)?;
        let is_log = self.only.is_some();
        let mut line = format!("{replica} {kind}");
        if let Some((name, position)) = subject {
            line += &format!(" {}", self.names.name(name, is_log)?);
            if let Some(position) = position {
                u32::try_from(position).map_err(|_| Refused::Position { position })?;
                line += &format!(" {position}");
            }
        }
        line += " :";
        for name in response {
            line.push(' ');
            line += &self.names.name(name.as_ref(), is_log)?;
        }
        let inserts = usize::from(kind == "ins");
        self.fits(replica, inserts, response.len())?;
        let own = &mut self.replicas[replica];
        own.entries += 1;
        own.operations += 1;
        own.inserts += inserts;
        own.places += response.len();
        own.pasts.push(Arc::clone(&own.others));
        if subject.is_some() {
            own.changes.push(own.operations);
        }
        let n = own.operations;
        self.line(format_args!("{line}"));
        Ok(n)
    }

    /// The limits, in the order in which the program tests them.
    fn fits(&self, replica: usize, inserts: usize, names: usize) -> Result<(), Refused> {
        self.room(replica)?;
        let own = &self.replicas[replica];
        let places = own.places + names;
        if own.inserts + inserts > MOST_INSERTS {
            return Err(Refused::InsertsFull { replica });
        }
        if names > MOST_NAMES {
            return Err(Refused::LongResponse { names });
        }
        if places > MOST_PLACES {
            return Err(Refused::PlacesFull { replica, places });
        }
        Ok(())
    }

    /// How many operations of each replica this one has.
    fn has(&self, replica: usize) -> Vec<u32> {
        let mut has = self.replicas[replica].others.to_vec();
        has[replica] = self.replicas[replica].operations;
        has
    }

    fn check_clock(&self, clock: &[u32]) -> Result<(), Refused> {
        if self.only.is_some() {
            return Err(Refused::Unknown);
        }
        if clock.len() != self.replicas.len() {
            return Err(Refused::LongClock { replicas: self.replicas.len() });
        }
        for (replica, &count) in clock.iter().enumerate() {
            let have = self.replicas[replica].changes.len();
            if count as usize > have {
                return Err(Refused::UnknownChange { replica, count, have });
            }
        }
        Ok(())
    }

    /// The replica, which has so many operations of each, has or gets with the carried changes, which are the author's from the
    /// first one on, all that the author had seen at its operation n.
    fn check_causal(
        &self,
        replica: usize,
        author: usize,
        n: u32,
        clock: &[u32],
        has: &[u32],
        first: u32,
    ) -> Result<(), Refused> {
        let past = &self.replicas[author].pasts[n as usize - 1];
        for (other, of) in self.replicas.iter().enumerate() {
            let by_receipts = if other == author { n - 1 } else { past[other] };
            let by_clock = clock[other].checked_sub(1).map_or(0, |place| of.changes[place as usize]);
            let last = by_receipts.max(by_clock);
            let new = of.changes.get(of.changes.partition_point(|&one| one <= has[other]));
            if let Some(&lacking) = new.filter(|&&one| one <= last && (other != author || one < first)) {
                return Err(Refused::NotCausal { replica, change: (author, n), lacking: (other, lacking) });
            }
        }
        Ok(())
    }

    /// Writes a receipt that may be written.
    #[track_caller]
    fn receipt(&mut self, replica: usize, author: usize, n: u32) {
        self.replicas[replica].entries += 1;
        if self.only.is_none() {
            let past = Arc::clone(&self.replicas[author].pasts[n as usize - 1]);
            let others = &mut self.replicas[replica].others;
            let mut new: Vec<u32> = others.iter().zip(past.iter()).map(|(&one, &two)| one.max(two)).collect();
            new[author] = new[author].max(n);
            if new[..] != others[..] {
                *others = new.into();
            }
        }
        self.line(format_args!("{replica} recv {author} {n}"));
    }
}

/// Where a recording stands: bytes of its text, entries, names of ids; and of each replica what a receipt and a read change.
struct Mark {
    bytes: usize,
    entries: usize,
    names: usize,
    replicas: Vec<(usize, u32, usize, Arc<[u32]>)>,
}

/// What warnings are made of: of each replica what its entries in the text say, and what is told of single deletes and inserts.
struct Warned<'a> {
    recording: &'a Recording,
    replicas: Vec<Entries<'a>>,
    of_nothing: Vec<String>,
    past_end: Vec<String>,
    here: PathBuf,
}

/// The lines of a replica's changes; whether it has receipts; the names of the list that it showed last, which a view is not, and the number of
/// that operation; which receipts came since, each as the author, the operation's number and the line, and whether a view follows them.
#[derive(Default)]
struct Entries<'a> {
    lines: Vec<usize>,
    is_receiving: bool,
    since: Vec<(usize, u32, usize)>,
    is_viewed: bool,
    shown: Option<&'a str>,
    last: u32,
}

impl<'a> Warned<'a> {
    fn of(recording: &'a Recording) -> Self {
        let replicas = recording.replicas.iter().map(|_| Entries::default()).collect();
        let here = std::env::current_dir().unwrap_or_default();
        let mut warned = Warned { recording, replicas, of_nothing: vec![], past_end: vec![], here };
        let mut inserted = HashSet::new();
        let mut deletes = Vec::new();
        let mut operations = vec![0; recording.replicas.len()];
        for (at, entry) in recording.lines.lines().skip(HEAD_LINES).enumerate() {
            let line = at + HEAD_LINES + 1;
            let (head, names) = entry.split_once(':').unwrap_or((entry, ""));
            let words: Vec<&str> = head.split_ascii_whitespace().collect();
            let replica = number(words[0]) as usize;
            let own = &mut warned.replicas[replica];
            if words[1] == "recv" {
                own.is_receiving = true;
                own.since.push((number(words[2]) as usize, number(words[3]), line));
                own.is_viewed = false;
                continue;
            }
            operations[replica] += 1;
            let named = format!("line {line}, {replica}.{}: replica {replica}", operations[replica]);
            own.is_viewed = words[1] == "view";
            if !own.is_viewed {
                own.since.clear();
                own.shown = Some(names);
                own.last = operations[replica];
            }
            match words[1] {
                "ins" => {
                    own.lines.push(line);
                    inserted.insert(words[2]);
                    let before = names.matches(' ').count() as i64 - 1;
                    if i64::from(number(words[3])) > before {
                        warned.past_end.push(format!(
                            "{named} inserted {} at position {at}, past the end of a list of length {before}, so it counts as the end: \
                             is position {at} right?",
                            words[2],
                            at = words[3]
                        ));
                    }
                }
                "del" => {
                    own.lines.push(line);
                    deletes.push((words[2], named));
                }
                _ => {}
            }
        }
        for (name, named) in deletes.into_iter().filter(|(name, _)| !inserted.contains(name)) {
            warned.of_nothing.push(format!(
                "{named} deleted `{name}`, which no line inserts, so nothing was there to delete: \
                 the name is wrong, or its insert was not recorded"
            ));
        }
        warned
    }

    fn all(self) -> Vec<String> {
        if self.recording.callers.is_empty() {
            return vec!["nothing was recorded: the trace has no entry, so the verdict says nothing about your editor".to_string()];
        }
        let (late, strangers) = (self.received_last(), self.unheard());
        let mut all = self.unshown(&late);
        all.extend(self.different(&late));
        all.extend(strangers);
        all.extend(self.without_operation());
        all.extend(some(&self.of_nothing, "delete", "of elements that no line inserts"));
        all.extend(some(&self.past_end, "insert", "past the end of a list"));
        all
    }

    /// The replicas that did something, each with how many operations of each replica it has.
    fn acting(&self) -> impl Iterator<Item = (usize, Vec<u32>)> + '_ {
        let replicas = self.recording.replicas.iter().enumerate();
        replicas.filter(|(_, own)| own.operations > 0).map(|(replica, _)| (replica, self.recording.has(replica)))
    }

    fn without_operation(&self) -> impl Iterator<Item = String> + '_ {
        let replicas = self.recording.replicas.iter().zip(&self.replicas).enumerate();
        replicas.filter(|(_, (own, _))| own.operations == 0).map(|(replica, (_, entries))| {
            let has = if entries.is_receiving { "receipts, but no operation" } else { "no entry" };
            format!("replica {replica} has {has}: nothing that it showed is judged")
        })
    }

    /// Whether the last lists that replicas showed differ as sets, and which changes never arrived at which replica. A late
    /// one's list is an older one, which is said by itself too.
    fn different(&self, late: &BTreeMap<usize, Vec<String>>) -> Vec<String> {
        let mut lists: Vec<(BTreeSet<&str>, Vec<usize>)> = Vec::new();
        for (replica, entries) in self.replicas.iter().enumerate().filter(|(replica, _)| !late.contains_key(replica)) {
            let list = entries.shown.map(|shown| shown.split_ascii_whitespace().collect());
            match list.map(|list| (lists.iter().position(|(other, _)| *other == list), list)) {
                Some((Some(at), _)) => lists[at].1.push(replica),
                Some((None, list)) => lists.push((list, vec![replica])),
                None => {}
            }
        }
        let lacking: Vec<_> = self.acting().map(|(replica, has)| (replica, self.lacked(replica, &has))).collect();
        let mut alike: Vec<(String, Vec<usize>)> = Vec::new();
        for (replica, changes) in lacking.iter().filter(|(_, changes)| !changes.is_empty()) {
            let what = listed(changes);
            match alike.iter_mut().find(|(other, _)| *other == what) {
                Some((_, replicas)) => replicas.push(*replica),
                None => alike.push((what, vec![*replica])),
            }
        }
        let told = |(what, at): &(String, Vec<usize>)| format!("{what} never arrived at replica{} {}", plural(at.len()), joined(at));
        let never = alike.iter().map(told).collect::<Vec<String>>().join("; ");
        let (count, is_one) = (alike.len(), alike.len() == 1 && lacking.iter().all(|(_, changes)| changes.len() < 2));
        let lost = if is_one { "Unless it was still on its way, it was lost or is held back" } else { "Unless they were still on their way, they were lost or are held back" };
        if lists.len() < 2 {
            let told = format!("in this recording {never}. {lost}");
            return if count == 0 { vec![] } else { vec![told] };
        }
        let mut replicas: Vec<usize> = lists.iter().flat_map(|(_, of)| of).copied().collect();
        replicas.sort_unstable();
        let same: Vec<String> =
            lists.iter().filter(|(_, of)| of.len() > 1).map(|(_, of)| format!("{} show the same one", joined(of))).collect();
        let same = match same.join("; ") {
            same if same.is_empty() => String::new(),
            same => format!(" ({same})"),
        };
        let told = format!("the last lists of replicas {} differ{same}", joined(&replicas));
        if lacking.iter().any(|(replica, changes)| !changes.is_empty() && !replicas.contains(replica)) {
            return vec![told, format!("in this recording {never}. {lost}")];
        }
        vec![if count == 0 { told } else { format!("{told}: {never} in this recording. {lost}") }]
    }

    /// The changes that never arrived at the replica, with their lines; none of an author of which it never hears.
    fn lacked(&self, replica: usize, has: &[u32]) -> Vec<String> {
        let mut found = Vec::new();
        for (author, of) in self.recording.replicas.iter().enumerate().filter(|(author, _)| *author != replica) {
            let heard = of.changes.partition_point(|&n| n <= has[author]);
            if heard > 0 {
                let lines = self.replicas[author].lines[heard..].iter();
                found.extend(lines.zip(&of.changes[heard..]).map(|(&line, n)| (line, author, *n)));
            }
        }
        found.sort_unstable();
        found.into_iter().map(|(line, author, n)| format!("{author}.{n} ({})", self.line(line))).collect()
    }

    /// Of replicas that did something, and never heard of a change of another.
    fn unheard(&self) -> Vec<String> {
        let mut told = Vec::new();
        for (replica, has) in self.acting() {
            let is_unheard = |(author, of): &(usize, &Replica)| *author != replica && of.changes.first() > Some(&has[*author]);
            let others: Vec<usize> =
                self.recording.replicas.iter().enumerate().filter(is_unheard).map(|(author, _)| author).collect();
            if !others.is_empty() {
                told.push(format!(
                    "replica {replica} never hears of replica{} {}: no receipt brings it an insert or a delete from there, \
                     so nothing shows how it applies these. At the end of a session let everyone receive everything, and then read the list",
                    plural(others.len()),
                    joined(&others)
                ));
            }
        }
        told
    }

    /// By replica the last receipts that bring changes, and are followed by no list that it shows, or by a view alone.
    fn received_last(&self) -> BTreeMap<usize, Vec<String>> {
        let mut late = BTreeMap::new();
        for (replica, own) in self.recording.replicas.iter().enumerate().filter(|(_, own)| own.operations > 0) {
            let last = self.replicas[replica].last;
            let mut has = match last {
                0 => vec![0; self.replicas.len()],
                _ => own.pasts[last as usize - 1].to_vec(),
            };
            has[replica] = last;
            let mut news = Vec::new();
            for &(author, n, line) in &self.replicas[replica].since {
                let mut is_new = false;
                for (other, of) in self.recording.replicas.iter().enumerate() {
                    let seen = if other == author { n } else { self.recording.replicas[author].pasts[n as usize - 1][other] };
                    let next = of.changes.get(of.changes.partition_point(|&one| one <= has[other]));
                    is_new |= matches!(next, Some(&next) if next <= seen);
                    has[other] = has[other].max(seen);
                }
                if is_new {
                    news.push(format!("{author}.{n} (in {})", self.line(line)));
                }
            }
            if !news.is_empty() {
                late.insert(replica, news);
            }
        }
        late
    }

    fn unshown(&self, late: &BTreeMap<usize, Vec<String>>) -> Vec<String> {
        let told = |(&replica, news): (&usize, &Vec<String>)| {
            let news = listed(news);
            let but = if self.replicas[replica].is_viewed { " but a view" } else { "" };
            format!("replica {replica} shows no list{but} after it received {news}: let each replica read at the end")
        };
        late.iter().map(told).collect()
    }

    /// A line of the trace, with its place in your code.
    fn line(&self, line: usize) -> String {
        format!("line {line}, {}", place(self.recording.callers[line - HEAD_LINES - 1], &self.here))
    }
}

/// A file of its own beside the one that it is to become, so that this one appears whole or stays what it was.
struct Fresh {
    path: PathBuf,
    becomes: PathBuf,
    is_put: bool,
}

impl Fresh {
    fn written(path: &Path, text: &str) -> io::Result<Fresh> {
        static COUNT: AtomicUsize = AtomicUsize::new(0);
        let becomes = behind_links(path);
        let (path, mut file) = loop {
            let number = COUNT.fetch_add(1, Ordering::Relaxed);
            let name = OsString::from(format!(".domepeeler-{}-{number}", std::process::id()));
            let path = becomes.with_file_name(name);
            match File::options().write(true).create_new(true).open(&path) {
                Err(why) if why.kind() == io::ErrorKind::AlreadyExists => continue,
                opened => break (path, opened?),
            }
        };
        let fresh = Fresh { path, becomes, is_put: false };
        if let Ok(about) = fs::metadata(&fresh.becomes) {
            file.set_permissions(about.permissions())?;
        }
        file.write_all(text.as_bytes())?;
        Ok(fresh)
    }

    fn put(mut self) -> io::Result<()> {
        fs::rename(&self.path, &self.becomes)?;
        self.is_put = true;
        Ok(())
    }
}

impl Drop for Fresh {
    fn drop(&mut self) {
        if !self.is_put {
            let _ = fs::remove_file(&self.path); // the error that led here is the one to tell
        }
    }
}

impl Names {
    /// The name in the trace: what is given, or if that is no name but an id, a name that no other id has.
    fn name(&mut self, given: &str, is_log: bool) -> Result<String, Refused> {
        if let Some(name) = self.short.get(given) {
            return Ok(name.clone());
        }
        if is_name(given) {
            if given.len() == MOST_BYTES || given.starts_with("long") || given.contains('-') {
                self.keep(given, given)?; // other names never stand for an id
            }
            return Ok(given.to_string());
        }
        let is_long = given.len() > MOST_BYTES;
        if !is_long && !is_id(given) {
            return Err(Refused::Name { name: given.to_string() });
        }
        let mut name = match (is_long, is_uuid(given)) {
            (true, true) => given.replace('-', ""),
            (true, false) => String::new(),
            (false, _) => translated(given),
        };
        if !is_name(&name) || self.ids.contains_key(&name) {
            name = self.numbered(given, is_log)?;
        }
        self.keep(&name, given)?;
        self.short.insert(given.to_string(), name.clone());
        Ok(name)
    }

    /// The next name that stands for an id.
    fn numbered(&self, given: &str, is_log: bool) -> Result<String, Refused> {
        if is_log {
            return Err(Refused::NoNumber { id: given.to_string() });
        }
        let mut number = 1 + self.short.len();
        while self.ids.contains_key(&format!("long{number}")) {
            number += 1;
        }
        Ok(format!("long{number}"))
    }

    /// From now on the name is that of this id.
    fn keep(&mut self, name: &str, id: &str) -> Result<(), Refused> {
        match self.ids.get(name) {
            Some(had) if had != id => Err(Refused::ShortFor { name: name.to_string(), id: had.clone() }),
            Some(_) => Ok(()),
            None => {
                self.ids.insert(name.to_string(), id.to_string());
                self.order.push(name.to_string());
                Ok(())
            }
        }
    }

    /// Forgets all names but so many.
    fn forget(&mut self, before: usize) {
        for name in self.order.split_off(before) {
            if let Some(id) = self.ids.remove(&name) {
                self.short.remove(&id);
            }
        }
    }
}

/// What a path leads to by links, which stay links when that is written.
fn behind_links(path: &Path) -> PathBuf {
    let mut at = path.to_path_buf();
    for _ in 0..MOST_LINKS {
        match fs::read_link(&at) {
            Ok(target) => at = at.parent().unwrap_or_else(|| Path::new("")).join(target),
            Err(_) => break, // it is none
        }
    }
    at
}

/// Where a test saves the trace of its second recording, or of a later one.
fn numbered(path: &Path, number: usize) -> PathBuf {
    let name = path.file_stem().unwrap_or_default().to_string_lossy();
    path.with_file_name(format!("{name}-{number}.trace"))
}

/// The name of the program that runs.
fn program() -> String {
    std::env::current_exe().unwrap_or_default().file_stem().unwrap_or_default().to_string_lossy().into_owned()
}

/// Whether a program's name ends with a hash, as cargo puts it behind those of tests.
fn has_hash(program: &str) -> bool {
    let is_hash = |hash: &str| hash.len() == LETTERS_OF_HASH && hash.bytes().all(|byte| byte.is_ascii_hexdigit());
    matches!(program.rsplit_once('-'), Some((_, hash)) if is_hash(hash))
}

/// Where a test saves its trace: by the name of the program that runs it and its own, or by the line that asks if it has none. What an
/// earlier run of the test saved there is removed when it first asks; later in the run it stays, as a property's smallest case may fail
/// before others pass.
fn failed_trace(caller: &Location) -> PathBuf {
    static ASKED: Mutex<Vec<PathBuf>> = Mutex::new(Vec::new());
    let program = program();
    let program = if has_hash(&program) { &program[..program.len() - 1 - LETTERS_OF_HASH] } else { &program };
    let thread = std::thread::current();
    let test = thread.name().filter(|name| *name != "main").map(str::to_string);
    let test = test.unwrap_or_else(|| format!("line {}", caller.line()));
    let plain = |letter: char| if letter.is_ascii_alphanumeric() || "_-.".contains(letter) { letter } else { '-' };
    let name: String = format!("{program}-{}", test.replace("::", "-")).chars().map(plain).take(MOST_LETTERS).collect();
    let path = Path::new(FAILED_TRACES).join(name + ".trace");
    let mut asked = ASKED.lock().unwrap_or_else(|poisoned| poisoned.into_inner());
    if !asked.contains(&path) {
        remove_saved(&path);
        asked.push(path.clone());
    }
    path
}

/// Removes what this test has saved, unless another run saved it that is still at work, or another program of this one.
fn remove_saved(path: &Path) {
    let remove = |trace: &Path| {
        let is_removed = fs::remove_file(trace).is_ok(); // most often there is none
        let _ = fs::remove_file(trace.with_extension("trace.lines"));
        is_removed
    };
    let mut old = path.to_path_buf();
    for number in 2.. {
        let is_left = is_of_another(&old) || remove(&old);
        if !is_left && number > 2 {
            break;
        }
        old = numbered(path, number);
    }
    let stem = path.file_stem().unwrap_or_default().to_string_lossy();
    for file in fs::read_dir(FAILED_TRACES).into_iter().flatten().flatten() {
        let name = file.file_name();
        if is_of_run(&stem, &name.to_string_lossy()) && !is_of_another(&file.path()) {
            remove(&file.path());
        }
    }
}

/// Whether the file of this name is a trace that a run of tests saved beside another's, of the test with this stem.
fn is_of_run(stem: &str, name: &str) -> bool {
    let parts = name.strip_suffix(".trace").and_then(|name| name.rsplit_once(".run"));
    let number = parts.and_then(|(before, _)| before.strip_prefix(stem));
    matches!(parts, Some((_, run)) if is_run(run))
        && matches!(number, Some(number) if number.is_empty() || matches!(number.strip_prefix('-'), Some(number) if is_number(number)))
}

/// Whether it is the name of a run: three numbers.
fn is_run(name: &str) -> bool {
    name.split('-').count() == 3 && name.split('-').all(is_number)
}

fn is_number(text: &str) -> bool {
    !text.is_empty() && text.bytes().all(|byte| byte.is_ascii_digit())
}

/// Where this process saves a trace, which it marks as its own: by another name where a run that is still at work has marked it, or another
/// program of this one, or another thread of this process has saved it. Each marks it before it looks, so that of two at the same time none takes
/// what the other saves. Where it can't be marked, the trace is saved all the same.
fn marked(path: &Path) -> PathBuf {
    static SAVED_BY: Mutex<Vec<(PathBuf, std::thread::ThreadId)>> = Mutex::new(Vec::new());
    let mut saved_by = SAVED_BY.lock().unwrap_or_else(|poisoned| poisoned.into_inner());
    let this = std::thread::current().id();
    let is_of_others = |path: &Path| saved_by.iter().any(|(saved, thread)| saved == path && *thread != this);
    let mut own = path.to_path_buf();
    let mut number = 1;
    while is_of_others(&own) {
        number += 1;
        own = numbered(path, number);
    }
    if !saved_by.iter().any(|(saved, _)| *saved == own) {
        saved_by.push((own.clone(), this));
    }
    if is_marked(&own) {
        if !is_of_another(&own) {
            return own;
        }
        let _ = fs::remove_file(mark_of(&own, &this_run())); // it is the other's
    }
    let other = own.with_extension(format!("run{}.trace", name_of_run(std::process::id())));
    is_marked(&other);
    other
}

/// Marks a trace as saved by this process, unless another has marked it; whether it is this one's, as far as can be known.
fn is_marked(path: &Path) -> bool {
    let mark = mark_of(path, &this_run());
    let number = std::process::id().to_string();
    let made = fs::create_dir_all(mark.parent().unwrap_or_else(|| Path::new("")))
        .and_then(|()| File::options().write(true).create_new(true).open(&mark))
        .and_then(|mut file| file.write_all(number.as_bytes()));
    match made {
        Err(why) if why.kind() == io::ErrorKind::AlreadyExists => matches!(fs::read_to_string(&mark), Ok(there) if there == number),
        _ => true,
    }
}

fn mark_of(path: &Path, run: &str) -> PathBuf {
    let name = format!("{}.{MARK}", path.file_stem().unwrap_or_default().to_string_lossy());
    Path::new(FAILED_TRACES).join(RUNS).join(run).join(name)
}

/// Whether another run of tests that is still at work has marked this trace, or another process of this run. What ended ones have marked is theirs
/// no longer.
fn is_of_another(path: &Path) -> bool {
    let mut is_another = false;
    for folder in fs::read_dir(Path::new(FAILED_TRACES).join(RUNS)).into_iter().flatten().flatten() {
        let run = folder.file_name().to_string_lossy().into_owned();
        let own = std::process::id().to_string();
        let is_folder = matches!(folder.file_type(), Ok(kind) if kind.is_dir());
        if run == this_run() {
            is_another |= matches!(fs::read_to_string(mark_of(path, &run)), Ok(number) if number != own);
        } else if !is_folder {
            continue; // it is nobody's
        } else if is_run(&run) && !is_at_work(&run, &folder.path()) {
            forget(&folder.path());
        } else if is_run(&run) {
            is_another |= mark_of(path, &run).exists();
        }
    }
    is_another
}

/// Removes the marks of a run that has ended.
fn forget(folder: &Path) {
    for mark in fs::read_dir(folder).into_iter().flatten().flatten() {
        let is_file = matches!(mark.file_type(), Ok(kind) if kind.is_file());
        let is_mark = is_file && matches!(fs::read_to_string(mark.path()), Ok(number) if number.bytes().all(|byte| byte.is_ascii_digit()));
        if is_mark && matches!(mark.path().extension(), Some(ending) if ending == MARK) {
            let _ = fs::remove_file(mark.path()); // another may have done so
        }
    }
    let _ = fs::remove_dir(folder);
}

/// Which run of tests this process is of, by the process that began it: cargo, which begins one for each file of tests, also by way of rustdoc or a
/// runner of yours; or itself.
fn this_run() -> String {
    static RUN: Mutex<Option<String>> = Mutex::new(None);
    let mut run = RUN.lock().unwrap_or_else(|poisoned| poisoned.into_inner());
    let is_test = std::env::var_os("CARGO").is_some() && (has_hash(&program()) || program() == OF_DOCTESTS);
    run.get_or_insert_with(|| name_of_run(is_test.then(runner).flatten().unwrap_or_else(std::process::id))).clone()
}

/// The process farthest up that runs tests and began this one, perhaps by way of others; none where the system does not say, or it has ended.
fn runner() -> Option<u32> {
    let (mut process, mut found) = (std::process::id(), None);
    for _ in 0..MOST_PARENTS {
        let told = fs::read_to_string(format!("/proc/{process}/stat")).unwrap_or_default();
        let name = told.split_once('(').and_then(|(_, rest)| rest.rsplit_once(')')).map_or("", |(name, _)| name);
        if name.starts_with("cargo") || name == "rustdoc" {
            found = Some(process);
        }
        let parent = told.rsplit_once(") ").and_then(|(_, rest)| rest.split(' ').nth(1)).and_then(|number| number.parse().ok());
        match parent {
            Some(number) if number > 0 => process = number,
            _ => break,
        }
    }
    if told_of_processes() {
        return found;
    }
    #[cfg(unix)]
    return Some(std::os::unix::process::parent_id());
    #[cfg(not(unix))]
    None
}

fn told_of_processes() -> bool {
    Path::new("/proc/self/stat").exists()
}

/// The name of a run, by the process that began it: its number, when it was begun, and in which space of such numbers, as a container has its own.
fn name_of_run(process: u32) -> String {
    format!("{process}-{}-{}", state_of_process(process).1, space_of_processes())
}

/// The state of a process, as a letter, and when it was begun, in ticks of the system; of one that there is not, or of a system that does not say,
/// nothing and 0.
fn state_of_process(process: u32) -> (String, String) {
    let told = fs::read_to_string(format!("/proc/{process}/stat")).unwrap_or_default();
    let mut words = told.rsplit_once(") ").map_or("", |(_, words)| words).split(' ');
    let letter = words.next().unwrap_or_default().to_string();
    (letter, words.nth(18).unwrap_or("0").to_string())
}

fn space_of_processes() -> String {
    let link = fs::read_link("/proc/self/ns/pid").unwrap_or_default();
    let number: String = link.to_string_lossy().chars().filter(char::is_ascii_digit).collect();
    if number.is_empty() { "0".to_string() } else { number }
}

/// Whether a run of this name has not ended. Of one in another space nobody here knows that: it counts as at work for a day. A process that has
/// ended may be left of which nobody has taken notice.
fn is_at_work(run: &str, folder: &Path) -> bool {
    let mut parts = run.split('-');
    let (process, begun, space) = (parts.next().unwrap_or_default(), parts.next().unwrap_or_default(), parts.next().unwrap_or_default());
    if space != space_of_processes() {
        let since = fs::metadata(folder).and_then(|about| about.modified()).ok().and_then(|changed| changed.elapsed().ok());
        return matches!(since, Some(since) if since < DAY);
    }
    if begun == "0" {
        let mut asking = Command::new("kill");
        let asked = asking.args(["-0", process]).stdin(Stdio::null()).stdout(Stdio::null()).stderr(Stdio::null()).status();
        return matches!(asked, Ok(ended) if ended.success());
    }
    let (letter, since) = state_of_process(process.parse().unwrap_or_default());
    since == begun && letter != "Z" && letter != "X"
}

/// A path for a message, which begins no line and sends nothing to a terminal.
fn shown(path: &Path) -> String {
    let letters = path.to_string_lossy();
    letters.chars().map(|letter| if is_printable(letter) { letter.to_string() } else { letter.escape_default().to_string() }).collect()
}

/// A name or an id for an error: a byte that is no printable ASCII stands as `\x1b`, and so does the first of `::` or `##` that begins it,
/// behind spaces too, since CI services take a line that begins so for a command.
fn escaped(text: &str) -> String {
    let first = command(text);
    let mut told = String::new();
    for (at, byte) in text.bytes().enumerate() {
        match byte {
            b' '..=b'~' if Some(at) != first => told.push(byte.into()),
            _ => told += &format!("\\x{byte:02x}"),
        }
    }
    told
}

/// Where the first sign of such a command stands, if the text begins with one.
fn command(text: &str) -> Option<usize> {
    let begin = text.trim_start_matches(' ');
    let is_command = begin.starts_with("::") || begin.starts_with("##");
    is_command.then(|| text.len() - begin.len())
}

/// A line, with that sign as in an error.
fn plain(line: String) -> String {
    match command(&line) {
        Some(at) => format!("{}\\x{:02x}{}", &line[..at], line.as_bytes()[at], &line[at + 1..]),
        None => line,
    }
}

/// The operation of this name, as `2.1`.
fn operation(name: &str) -> Option<Operation> {
    let (replica, n) = name.split_once('.')?;
    Some((replica.parse().ok()?, n.parse().ok()?))
}

/// A line of code, with the file's path from this folder if it lies below that.
fn place(caller: &Location, here: &Path) -> String {
    let file = Path::new(caller.file());
    let near = file.strip_prefix(here).unwrap_or(file).to_string_lossy();
    near.replace(char::is_control, "?") + &format!(":{}", caller.line())
}

/// A part of the explanation with a title, where it has lines.
fn section(title: &str, lines: impl Iterator<Item = String>) -> String {
    let told: String = lines.map(|line| format!("  {}\n", plain(line))).collect();
    if told.is_empty() { told } else { format!("\n{title}\n{told}") }
}

/// The first of the lines, and how many more there are.
fn some(told: &[String], what: &str, which: &str) -> Vec<String> {
    let more = told.len().saturating_sub(MOST_TOLD);
    let rest = format!("and {more} more {what}{} {which}", plural(more));
    told.iter().take(MOST_TOLD).cloned().chain((more > 0).then_some(rest)).collect()
}

/// The first of the changes, and how many more there are.
fn listed(changes: &[String]) -> String {
    let more = changes.len().saturating_sub(MOST_CHANGES);
    let mut told = changes[..changes.len() - more].to_vec();
    told.extend((more > 0).then(|| format!("{more} more")));
    joined(&told)
}

fn joined<T: ToString>(words: &[T]) -> String {
    let mut words: Vec<String> = words.iter().map(T::to_string).collect();
    let last = words.pop().unwrap_or_default();
    if words.is_empty() { last } else { format!("{} and {last}", words.join(", ")) }
}

fn plural(count: usize) -> &'static str {
    if count == 1 { "" } else { "s" }
}

/// As a string of JSON.
fn quoted(text: &str) -> String {
    let mut told = String::from("\"");
    for letter in text.chars() {
        match letter {
            '"' | '\\' => told.extend(['\\', letter]),
            control if control < ' ' => told += &format!("\\u{:04x}", control as u32),
            other => told.push(other),
        }
    }
    told + "\""
}

/// A number that the recorder has written.
fn number(word: &str) -> u32 {
    word.parse().expect("a number of the text")
}

/// The lines of the trace that the explainer's words name: `line 7` with something behind it that is no name.
fn lines_named(said: &str) -> HashSet<usize> {
    let number = |(at, word): (usize, &str)| {
        let rest = &said[at + word.len()..];
        let digits = rest.bytes().take_while(u8::is_ascii_digit).count();
        let is_word = said[..at].ends_with(|letter: char| letter.is_alphanumeric() || letter == '_');
        if is_word || !is_named(&rest[digits..]) { None } else { rest[..digits].parse().ok() }
    };
    said.match_indices("line ").filter_map(number).collect()
}

fn is_named(behind: &str) -> bool {
    let replica = behind.strip_prefix(" (").map(|words| words.trim_start_matches(|digit: char| digit.is_ascii_digit()));
    let is_receipt = matches!(replica, Some(words) if words.starts_with(" recv "));
    behind.starts_with([',', ')', ':']) || behind.starts_with(" of the trace,") || is_receipt
}

fn is_name(given: &str) -> bool {
    (1..=MOST_BYTES).contains(&given.len()) && given.bytes().all(is_of_names)
}

fn is_of_names(byte: u8) -> bool {
    byte.is_ascii_alphanumeric() || b"_-.".contains(&byte)
}

/// Whether it has the letters of names, and at least one sign that ids may have beside these.
fn is_id(given: &str) -> bool {
    given.contains(SIGNS) && given.chars().all(|letter| SIGNS.contains(&letter) || letter.is_ascii() && is_of_names(letter as u8))
}

/// What such an id becomes, if that is a name: with a letter first, as `2-0` would look like an operation's name.
fn translated(given: &str) -> String {
    let first = if given.starts_with(|letter: char| letter.is_ascii_digit()) { "e" } else { "" };
    first.to_string() + &given.replace(SIGNS, "-")
}

/// Whether a note may have it: neither controls, nor what breaks a line or turns the direction of writing.
fn is_printable(letter: char) -> bool {
    !(letter.is_control() || ('\u{2028}'..='\u{202e}').contains(&letter) || ('\u{2066}'..='\u{2069}').contains(&letter))
}

/// Whether an id has the form of a UUID: 8, 4, 4, 4 and 12 hexadecimal digits between dashes.
fn is_uuid(given: &str) -> bool {
    let is_dash = |place: usize| [8, 13, 18, 23].contains(&place);
    let fits = |(place, byte): (usize, u8)| if is_dash(place) { byte == b'-' } else { byte.is_ascii_hexdigit() };
    given.len() == UUID_BYTES && given.bytes().enumerate().all(fits)
}

/// What the variable names, or the command.
/// What judges a trace in this process, as `domepeeler_native::verdict` does: given the text, and whether JSON is wanted, it answers the status with
/// which the program would end, what it would print, and what it would say on standard error.
pub type Judge = fn(&str, bool) -> (i32, Vec<u8>, Vec<u8>);

static HERE: Mutex<Option<(u32, Judge)>> = Mutex::new(None); // with the number of the process

/// From now on this judges the recordings of this process, but not where a call or $DOMEPEELER names a program, nor in a forked process.
pub fn judge_here(judge: Judge) {
    *HERE.lock().unwrap_or_else(std::sync::PoisonError::into_inner) = Some((std::process::id(), judge));
}

/// What judges recordings where no call names a program: `libdomepeeler`, or what else was given to `judge_here`; or the program of $DOMEPEELER, or
/// `domepeeler`.
pub fn judged_by() -> String {
    judge_of(PROGRAM).map_or_else(|| named("DOMEPEELER", PROGRAM), |_| "libdomepeeler".to_string())
}

/// What judges in this process in the place of the program, if anything does.
fn judge_of(program: &str) -> Option<Judge> {
    let (process, judge) = (*HERE.lock().unwrap_or_else(std::sync::PoisonError::into_inner))?;
    let is_named = program != PROGRAM || !named("DOMEPEELER", "").is_empty();
    (!is_named && process == std::process::id()).then_some(judge)
}

/// How the program would end, where something judges in its place.
fn ended_here(program: &str, words: &[&str], trace: &str) -> Option<Output> {
    let judge = judge_of(program).filter(|_| words.first() == Some(&"verdict"))?;
    let (status, stdout, stderr) = judge(trace, words.contains(&"--json"));
    Some(Output { status: exit_status(status)?, stdout, stderr })
}

#[cfg(unix)]
fn exit_status(status: i32) -> Option<std::process::ExitStatus> {
    use std::os::unix::process::ExitStatusExt;

    Some(std::process::ExitStatus::from_raw(status << 8))
}

#[cfg(not(unix))]
fn exit_status(_status: i32) -> Option<std::process::ExitStatus> {
    None
}

fn named(variable: &str, command: &str) -> String {
    std::env::var(variable).ok().filter(|named| !named.is_empty()).unwrap_or_else(|| command.to_string())
}

/// The tool that explains.
fn explainer() -> String {
    named("DOMEPEELER_EXPLAIN", &beside_program("domepeeler-explain"))
}

/// The command's path where it lies beside the program of $DOMEPEELER; else the command.
fn beside_program(command: &str) -> String {
    let program = named("DOMEPEELER", command);
    let folder = Path::new(&program).parent().filter(|folder| !folder.as_os_str().is_empty());
    let path = folder.map(|folder| folder.join(command)).filter(|path| path.is_file());
    path.and_then(|path| path.to_str().map(str::to_string)).unwrap_or_else(|| command.to_string())
}

/// How a program ended that has not answered.
fn ended(program: &str, done: &Output, lacking: &str) -> String {
    let said = String::from_utf8_lossy(&done.stderr);
    let (program, why) = (escaped(program), escaped(said.trim()));
    match done.status.code() {
        None => format!("{program} was ended by {}", signal(done)),
        Some(status) if why.is_empty() => format!("{program} ended with status {status} and printed {lacking}"),
        Some(status) => format!("{program} ended with status {status}: {why}"),
    }
}

#[cfg(unix)]
fn signal(done: &Output) -> String {
    use std::os::unix::process::ExitStatusExt;
    done.status.signal().map_or("a signal".to_string(), |number| format!("signal {number}"))
}

#[cfg(not(unix))]
fn signal(_: &Output) -> String {
    "a signal".to_string()
}

fn printed(program: &str, done: &Output) -> Result<String, String> {
    String::from_utf8(done.stdout.clone()).map_err(|why| format!("{program} printed no UTF-8: {why}"))
}

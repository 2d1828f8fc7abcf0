//! A property-based test by proptest: whatever is done at three replicas of the list of the crate crdts, the recording is
//! accepted without warnings. Needs Debian's librust-proptest+std-dev and librust-crdts-dev; run.py makes the package round it and runs it.
//!
//! For an editor whose server orders all changes, ask in `check` for `verdict.is_weak()`, and for `recording.warnings()`.
//!
//! To stop a debugger in the call that answered wrong, run the steps that failed alone, with `Recording::new(REPLICAS)?.stop()?` in
//! `Group::new`: it starts the program at each call.
//!
//! With the feature `native` libdomepeeler judges, in microseconds: run.py asks for it where the library is installed beside the program.
//!
//! The second test fails, and is meant to: it shows what a failure looks like, and leaves the recording in failed.trace.
//! There an operation may arrive before what its author had seen, which this list doesn't bear.
#![cfg(test)]
mod domepeeler;
#[cfg(feature = "native")]
mod domepeeler_native;

use crdts::{list::Op, CmRDT, List};
use domepeeler::{Recording, Refused, Verdict};
use proptest::prelude::*;

const REPLICAS: usize = 3;

/// What is done: by which replica, what, and where or to which element or from whom.
type Step = (usize, u8, usize);

/// An operation's author and number, and its message.
type Done = (usize, u32, Op<String, usize>);

struct Group {
    recording: Recording,
    lists: Vec<List<String, usize>>,
    /// The operations of each replica, in the order in which they came.
    has: Vec<Vec<Done>>,
}

impl Group {
    fn new() -> Result<Group, Refused> {
        #[cfg(feature = "native")]
        domepeeler::judge_here(domepeeler_native::verdict);
        let (lists, has) = (vec![List::new(); REPLICAS], vec![Vec::new(); REPLICAS]);
        Ok(Group { recording: Recording::new(REPLICAS)?, lists, has })
    }

    fn names(&self, replica: usize) -> Vec<String> {
        self.lists[replica].iter().cloned().collect()
    }

    fn insert(&mut self, replica: usize, name: String, place: usize) -> Result<(), Refused> {
        let position = place % (self.lists[replica].len() + 1);
        let message = self.lists[replica].insert_index(position, name.clone(), replica);
        self.lists[replica].apply(message.clone());
        let names = self.names(replica);
        let n = self.recording.insert(replica, &name, position, &names)?;
        self.has[replica].push((replica, n, message));
        Ok(())
    }

    fn delete(&mut self, replica: usize, place: usize) -> Result<(), Refused> {
        let names = self.names(replica);
        if names.is_empty() {
            return Ok(());
        }
        let place = place % names.len();
        let message = self.lists[replica].delete_index(place, replica).expect("a place in the list");
        self.lists[replica].apply(message.clone());
        let after = self.names(replica);
        let n = self.recording.delete(replica, &names[place], &after)?;
        self.has[replica].push((replica, n, message));
        Ok(())
    }

    /// The replica takes in what the other has; or, where exchange is not causal, what the other did itself. Answers each
    /// operation's author and number.
    fn take(&mut self, replica: usize, other: usize, causal: bool) -> Vec<(usize, u32)> {
        let mut taken = Vec::new();
        for one in self.has[other].clone() {
            let known = self.has[replica].iter().any(|had| had.0 == one.0 && had.1 == one.1);
            if !known && (causal || one.0 == other) {
                self.lists[replica].apply(one.2.clone());
                taken.push((one.0, one.1));
                self.has[replica].push(one);
            }
        }
        taken
    }
}

/// The recording of these steps. At the end all that was done is delivered to everyone.
fn session(steps: &[Step], causal: bool) -> Result<Recording, Refused> {
    let mut group = Group::new()?;
    for (number, &(replica, what, place)) in steps.iter().enumerate() {
        match what {
            0 => group.insert(replica, format!("e{number}"), place)?,
            1 => group.delete(replica, place)?,
            _ => {
                for (author, n) in group.take(replica, place % REPLICAS, causal) {
                    group.recording.received(replica, author, n)?;
                }
            }
        }
    }
    for replica in (0..REPLICAS).chain(0..REPLICAS) {
        for other in 0..REPLICAS {
            group.take(replica, other, causal);
        }
    }
    let lists: Vec<Vec<String>> = (0..REPLICAS).map(|replica| group.names(replica)).collect();
    group.recording.delivered(&lists)?; // writes the receipts of these, and reads
    Ok(group.recording)
}

fn check(steps: &[Step], causal: bool) -> Result<(), TestCaseError> {
    let recording = session(steps, causal).map_err(|why| TestCaseError::fail(why.to_string()))?;
    let verdict = recording.verdict().map_err(TestCaseError::fail)?;
    let is_right = matches!(&verdict, Verdict::Accepted { warnings, .. } if warnings.is_empty());
    if !is_right {
        // Of the steps that fail the smallest are the last that do.
        recording.save("failed.trace").map_err(|why| TestCaseError::fail(why.to_string()))?;
    }
    prop_assert!(is_right, "{verdict:?}\n{}", recording.text());
    Ok(())
}

fn steps() -> impl Strategy<Value = Vec<Step>> {
    prop::collection::vec((0..REPLICAS, 0..3u8, 0..8usize), 0..30)
}

proptest! {
    #![proptest_config(ProptestConfig { cases: 200, failure_persistence: None, ..ProptestConfig::default() })]

    #[test]
    fn the_list_of_crdts(steps in steps()) {
        check(&steps, true)?;
    }

    #[test]
    fn the_list_of_crdts_where_exchange_is_not_causal(steps in steps()) {
        check(&steps, false)?;
    }
}

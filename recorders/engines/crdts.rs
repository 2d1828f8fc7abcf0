//! The list of the Rust crate crdts, and how it is recorded. Run it by record.py; it reads plans and writes traces.
mod domepeeler;

use crdts::{list::Op, CmRDT, List};
use domepeeler::{Recording, Refused};
use std::collections::HashMap;
use std::io::{BufRead, Write};

/// So many replicas of one list, recorded. What is done here stands at the places where an editor would do it.
struct Group {
    recording: Recording,
    lists: Vec<List<String, usize>>,
    /// The message of each operation, by author and number; a read has none.
    messages: HashMap<(usize, u32), Op<String, usize>>,
}

impl Group {
    fn new(replicas: usize) -> Result<Group, Refused> {
        let lists = vec![List::new(); replicas];
        Ok(Group { recording: Recording::new(replicas)?, lists, messages: HashMap::new() })
    }

    fn names(&self, replica: usize) -> Vec<String> {
        self.lists[replica].iter().cloned().collect()
    }

    fn place(&self, replica: usize, name: &str) -> Option<usize> {
        self.lists[replica].iter().position(|had| had == name)
    }

    fn insert(&mut self, replica: usize, name: &str, position: usize) -> Result<(), Refused> {
        let message = self.lists[replica].insert_index(position, name.to_string(), replica);
        self.lists[replica].apply(message.clone());
        let names = self.names(replica);
        let n = self.recording.insert(replica, name, position, &names)?; // after the local change
        self.messages.insert((replica, n), message); // it goes out under the operation's name
        Ok(())
    }

    fn delete(&mut self, replica: usize, name: &str, place: usize) -> Result<(), Refused> {
        let message = self.lists[replica].delete_index(place, replica).expect("a place in the list");
        self.lists[replica].apply(message.clone());
        let names = self.names(replica);
        let n = self.recording.delete(replica, name, &names)?;
        self.messages.insert((replica, n), message);
        Ok(())
    }

    fn read(&mut self, replica: usize) -> Result<(), Refused> {
        let names = self.names(replica);
        self.recording.read(replica, &names).map(|_| ())
    }

    fn take(&mut self, replica: usize, author: usize, n: u32) -> Result<(), Refused> {
        if let Some(message) = self.messages.get(&(author, n)) {
            self.lists[replica].apply(message.clone());
        }
        self.recording.received(replica, author, n) // after the remote change was applied
    }

    /// One line of a plan. What the list must have and has not turns an operation into a read, which shows it.
    fn play(&mut self, words: &[&str]) -> Result<(), Refused> {
        let replica = words[0].parse().expect("a replica");
        match words[1..] {
            ["take", _, _, ref operations @ ..] => operations.iter().try_for_each(|operation| {
                let (author, n) = operation.split_once('.').expect("an operation");
                self.take(replica, author.parse().expect("a replica"), n.parse().expect("a number"))
            }),
            ["ins", name, "at", place] => {
                let place: usize = place.parse().expect("a place");
                self.insert(replica, name, place.min(self.lists[replica].len()))
            }
            ["ins", name, beside, other] => match self.place(replica, other) {
                Some(place) => self.insert(replica, name, place + usize::from(beside == "after")),
                None => self.read(replica),
            },
            ["del", name] => match self.place(replica, name) {
                Some(place) => self.delete(replica, name, place),
                None => self.read(replica),
            },
            _ => self.read(replica),
        }
    }
}

fn main() -> Result<(), Box<dyn std::error::Error>> {
    let mut group = Group::new(1)?;
    for line in std::io::stdin().lock().lines() {
        let line = line?;
        let words: Vec<&str> = line.split(' ').collect();
        match words[0] {
            "plan" => group = Group::new(words[1].parse()?)?,
            "end" => {
                print!("{}end\n", group.recording.text());
                std::io::stdout().flush()?;
            }
            _ => group.play(&words)?,
        }
    }
    Ok(())
}

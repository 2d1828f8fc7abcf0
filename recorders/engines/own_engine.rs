//! A list CRDT in Rust behind a server that keeps no list, which record.py asks for sessions: docs/engines.md. An element is inserted
//! after another one and stays for ever, a deleted one hidden; of two after the same one the greater id is first.
#[path = "../domepeeler.rs"]
mod domepeeler;
use std::{collections::HashMap, error::Error};

type List = Vec<((usize, usize), String, bool)>; // ids (a clock, and the author), names, and whether they are shown

enum Message {
    Insert((usize, usize), String, Option<String>), // after this one
    Delete(String),
}

fn names(list: &List) -> Vec<String> {
    list.iter().filter(|item| item.2).map(|item| item.1.clone()).collect()
}

fn apply(list: &mut List, message: &Message) {
    match message {
        Message::Delete(name) => list.iter_mut().filter(|item| item.1 == *name).for_each(|item| item.2 = false),
        Message::Insert(id, name, after) => {
            let first = after.as_ref().map_or(0, |after| list.iter().position(|item| item.1 == *after).expect("it came before") + 1);
            let greater = list[first..].iter().take_while(|item| item.0 > *id).count();
            list.insert(first + greater, (*id, name.clone(), true));
        }
    }
}

/// What the user does, and at which position: `ins name where beside` or `del name`, of names that the list has.
fn change(list: &List, r: usize, words: &[&str]) -> Option<(usize, Message)> {
    let had = names(list);
    let place = |sought: &str| had.iter().position(|name| name == sought);
    let position = match words {
        ["ins", _, "at", position] => had.len().min(position.parse().ok()?),
        ["ins", _, beside, other] => place(other)? + usize::from(*beside == "after"),
        ["del", name] => return Some((place(name)?, Message::Delete(name.to_string()))),
        _ => return None,
    };
    let id = (list.iter().map(|item| item.0 .0).max().unwrap_or(0) + 1, r);
    Some((position, Message::Insert(id, words[1].into(), had[..position].last().cloned())))
}

/// The recording of a plan, whose last replica is the server: that passes messages on, and shows nothing.
fn play(plan: &[String]) -> Result<String, Box<dyn Error>> {
    let clients = plan[0].split(' ').nth(1).ok_or("no plan")?.parse::<usize>()? - 1;
    let (mut recording, mut lists, mut sent) = (domepeeler::Recording::new(clients)?, vec![List::new(); clients], HashMap::new());
    for words in plan[1..plan.len() - 1].iter().map(|line| line.split(' ').collect::<Vec<_>>()) {
        let r: usize = words[0].parse()?;
        let list = if r == clients { continue } else { &mut lists[r] };
        if words[1] == "take" {
            for operation in &words[4..] {
                sent.get(*operation).iter().for_each(|message| apply(list, message)); // a read has no message
                let (author, n) = operation.split_once('.').ok_or("no operation")?;
                recording.received(r, author.parse()?, n.parse()?)?; // after it was applied
            }
            continue;
        }
        let change = change(list, r, &words[1..]);
        change.iter().for_each(|(_, message)| apply(list, message));
        let n = match &change {
            Some((position, Message::Insert(_, name, _))) => recording.insert(r, name, *position, &names(list))?,
            Some((_, Message::Delete(name))) => recording.delete(r, name, &names(list))?,
            None => recording.read(r, &names(list))?,
        };
        sent.extend(change.map(|(_, message)| (format!("{r}.{n}"), message)));
    }
    Ok(recording.text().into())
}

fn main() -> Result<(), Box<dyn Error>> {
    let mut plan = Vec::new();
    for line in std::io::stdin().lines() {
        plan.push(line?);
        if plan.ends_with(&["end".into()]) {
            println!("{}end", play(&std::mem::take(&mut plan))?);
        }
    }
    Ok(())
}

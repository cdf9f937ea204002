//! Operations of a type of one's own: a map is replicated by an enum, of which bytes are made by
//! hand. Keys and values have up to 100 bytes. `cargo run --bin typed` in this folder runs it.

use kioskbasil::replica::{Replicas, State};
use kioskbasil::Shape;
use std::{collections::BTreeMap, error::Error};

enum Operation<'a> {
    Set { key: &'a [u8], value: &'a [u8] },
    Remove { key: &'a [u8] },
}

impl<'a> Operation<'a> {
    /// A byte says which it is. Of `Set` another says how long the key is.
    fn encode(&self) -> Vec<u8> {
        match self {
            Operation::Set { key, value } => [&[0, key.len() as u8], *key, *value].concat(),
            Operation::Remove { key } => [&[1], *key].concat(),
        }
    }

    fn decode(bytes: &'a [u8]) -> Option<Operation<'a>> {
        match bytes {
            [0, length, rest @ ..] if rest.len() >= usize::from(*length) => {
                let (key, value) = rest.split_at(usize::from(*length));
                Some(Operation::Set { key, value })
            }
            [1, key @ ..] => Some(Operation::Remove { key }),
            _ => None,
        }
    }
}

#[derive(Default, PartialEq)]
struct Map(BTreeMap<Vec<u8>, Vec<u8>>);

impl State for Map {
    type Answer = Result<Option<Vec<u8>>, &'static str>; // the value before, or what is wrong

    fn apply(&mut self, _from: u32, bytes: &[u8]) -> Self::Answer {
        Ok(match Operation::decode(bytes).ok_or("no operation")? {
            Operation::Set { key, value } => self.0.insert(key.to_vec(), value.to_vec()),
            Operation::Remove { key } => self.0.remove(key),
        })
    }
}

fn main() -> Result<(), Box<dyn Error>> {
    let mut replicas = Replicas::open(Shape::of_workers(2), Map::default)?;
    let (mut anna, mut bert) = (replicas.remove(0), replicas.remove(0));
    let (key, value) = (&[1; 100][..], &[2; 100][..]);
    let (set, remove) = (Operation::Set { key, value }, Operation::Remove { key });
    assert_eq!(anna.execute(&set.encode())?, Ok(None));
    assert_eq!(bert.execute(&remove.encode())?, Ok(Some(value.to_vec())));
    assert_eq!(bert.execute(b"what?")?, Err("no operation"));
    assert_eq!(bert.execute(&set.encode())?, Ok(None));
    assert!(anna.latest()? == bert.latest()?);
    println!("2 replicas of {} key: equal", anna.state().0.len());
    Ok(())
}

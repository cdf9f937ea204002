//! Three workers replicate a map. Each sets keys to values of up to 100 bytes, and reads its own
//! replica, until a flag stops all. Two of them begin late. `cargo run --bin map` in this folder
//! goes on for a second.

use kioskbasil::replica::{Replica, ReplicaError, Replicas, State};
use kioskbasil::Shape;
use std::sync::atomic::{AtomicBool, Ordering};
use std::time::{Duration, Instant};
use std::{collections::BTreeMap, error::Error, thread};

#[derive(Default, PartialEq)]
struct Map(BTreeMap<Vec<u8>, Vec<u8>>);

impl State for Map {
    type Answer = Option<Vec<u8>>; // the value before

    /// Sets a key to a value: a byte says how long the key is, and both follow.
    fn apply(&mut self, _from: u32, operation: &[u8]) -> Option<Vec<u8>> {
        let (length, rest) = operation.split_first()?;
        let key = rest.get(..usize::from(*length))?;
        self.0.insert(key.to_vec(), rest[key.len()..].to_vec())
    }
}

fn set(key: &str, value: &str) -> Vec<u8> {
    [&[key.len() as u8], key.as_bytes(), value.as_bytes()].concat()
}

/// What a worker does: it counts its rounds by a key of its own, and sets one that all share.
fn work(mut replica: Replica<Map>, stop: &AtomicBool) -> Result<Map, ReplicaError> {
    let begin = Instant::now() + Duration::from_millis(250) * replica.number();
    while Instant::now() < begin {
        replica.hear_timeout(Duration::from_millis(10))?; // who begins late hears until then
    }
    let (own, mut last) = (format!("{:_>100}", replica.number()), None);
    for round in (0..).take_while(|_| !stop.load(Ordering::SeqCst)) {
        let value = format!("{round:_>100}");
        replica.submit(&set("last", &own))?;
        assert_eq!(replica.execute(&set(&own, &value))?, last);
        assert!(replica.latest()?.0.contains_key("last".as_bytes()));
        last = Some(value.into_bytes());
    }
    replica.finish()
}

fn main() -> Result<(), Box<dyn Error>> {
    let stop = AtomicBool::new(false);
    let replicas = Replicas::open(Shape::of_workers(3), Map::default)?;
    let maps = thread::scope(|scope| {
        let start = |replica| scope.spawn(|| work(replica, &stop));
        let workers: Vec<_> = replicas.into_iter().map(start).collect();
        thread::sleep(Duration::from_secs(1));
        stop.store(true, Ordering::SeqCst);
        let maps = workers.into_iter().map(|it| it.join().expect("a panic"));
        maps.collect::<Result<Vec<_>, _>>()
    })?;
    assert!(maps.iter().all(|map| *map == maps[0]));
    println!("3 replicas of {} keys: all equal", maps[0].0.len());
    Ok(())
}

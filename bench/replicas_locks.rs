//! Entrants of bench/replicas that go by crates of Debian: a lock, a map in parts with a lock each,
//! and two maps of which one is read without a lock.

use crate::{pause, Access, Fault, Map};
use arc_swap::ArcSwap;
use dashmap::DashMap;
use parking_lot::RwLock;
use std::sync::{Arc, Mutex};

impl Access for &RwLock<Map> {
    fn read(&mut self, key: u64) -> Result<u64, Fault> {
        Ok(RwLock::read(self).get(key))
    }

    fn write(&mut self, key: u64, value: u64) -> Result<(), Fault> {
        RwLock::write(self).0.insert(key, value);
        Ok(())
    }
}

impl Access for &DashMap<u64, u64> {
    fn read(&mut self, key: u64) -> Result<u64, Fault> {
        Ok(self.get(&key).map_or(0, |value| *value))
    }

    fn write(&mut self, key: u64, value: u64) -> Result<(), Fault> {
        self.insert(key, value);
        Ok(())
    }
}

/// The map that no reader is given, and a write that it lacks.
struct Other {
    map: Arc<Map>,
    lacks: Option<(u64, u64)>,
}

/// Two maps, as left-right has them: a write waits until the other map has no readers, applies to
/// it the write before and its own, and swaps.
pub struct LeftRight {
    read: ArcSwap<Map>,
    other: Mutex<Other>,
}

impl LeftRight {
    pub fn new() -> LeftRight {
        let map = Arc::new(Map::new());
        LeftRight {
            read: ArcSwap::from_pointee(Map::new()),
            other: Mutex::new(Other { map, lacks: None }),
        }
    }
}

impl Access for &LeftRight {
    fn read(&mut self, key: u64) -> Result<u64, Fault> {
        Ok(self.read.load().get(key))
    }

    fn write(&mut self, key: u64, value: u64) -> Result<(), Fault> {
        let mut other = self.other.lock().map_err(|_| "poisoned")?;
        let Other { map, lacks } = &mut *other;
        let mut tries = 0;
        let own = loop {
            match Arc::get_mut(map) {
                Some(own) => break own,
                None => pause(&mut tries),
            }
        };
        own.0.extend(lacks.replace((key, value)));
        own.0.insert(key, value);
        *map = self.read.swap(map.clone());
        Ok(())
    }
}

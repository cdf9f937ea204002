//! Three workers replicate a map, and what they say is on disk. A run replays the journals of
//! those before it, and goes on in a file of its own. `cargo run --bin recorded FOLDER` in this
//! folder has each count 100 more, or as many as a number behind FOLDER says. Kill it, and run it
//! again. One at a time has a folder: two would give the same numbers.

use kioskbasil::journal::{self, Header, Journal, SyncPolicy, Watch};
use kioskbasil::replica::{replay, Replica, Replicas, State};
use kioskbasil::{Page, Shape};
use std::{collections::BTreeMap, env, error::Error, fs, io, iter, thread};

type Fault = Box<dyn Error + Send + Sync>;

/// How often each word was counted.
#[derive(Clone, Default)]
struct Map(BTreeMap<Vec<u8>, u64>);

impl State for Map {
    type Answer = u64; // the count by now

    fn apply(&mut self, _from: u32, word: &[u8]) -> u64 {
        let count = self.0.entry(word.to_vec()).or_default();
        *count += 1;
        *count
    }
}

fn work(mut replica: Replica<Map>, times: u64, on_disk: &Watch) -> Result<Map, Fault> {
    let word = format!("worker {}", replica.number());
    let before = replica.state().0.get(word.as_bytes()).copied();
    for more in 1..=times {
        let count = replica.execute(word.as_bytes())?;
        assert_eq!(count, before.unwrap_or(0) + more); // none is lost, and none comes twice
        on_disk.wait(replica.words())?;
        println!("{word} has counted {count}");
    }
    Ok(replica.finish()?)
}

/// One above the greatest number of a file of a folder.
fn files(folder: &str) -> io::Result<u32> {
    let names = fs::read_dir(folder)?.collect::<Result<Vec<_>, _>>()?;
    let number = |name: &str| name.strip_prefix("recorded.")?.parse::<u32>().ok();
    let numbers = names
        .iter()
        .filter_map(|it| number(it.file_name().to_str()?));
    Ok(numbers.max().map_or(0, |last| last + 1))
}

/// What the journals of a folder say: the page of the next bus, the state, and the path of the next
/// file. What a crash has torn is passed over. Err names a file that is missing, or that has no
/// page behind the one before.
fn recover(folder: &str) -> Result<(Page, Map, String), Fault> {
    let file = |number| format!("{folder}/recorded.{number}");
    let (mut page, mut state, many) = (Page::from_numbers(&[0])?, Map::default(), files(folder)?);
    for number in 0..many {
        let read = journal::read(file(number))?;
        let next = read.page_after(&page);
        page = next.map_err(|why| format!("{}: {why}", file(number)))?;
        replay(&mut state, read.frames())?;
    }
    Ok((page, state, file(many)))
}

fn main() -> Result<(), Fault> {
    let folder = env::args().nth(1).ok_or("usage: recorded FOLDER [TIMES]")?;
    let times = env::args().nth(2).map_or(Ok(100), |it| it.parse())?;
    fs::create_dir_all(&folder)?;
    let (page, state, path) = recover(&folder)?;
    let (shape, header) = (Shape::of_workers(3), Header::after(3, &page)?);
    let (replicas, mut ear) = Replicas::open_recorded(shape, &page, || state.clone())?;
    let mut journal = Journal::create(path, header, SyncPolicy::EachFrame)?;
    let on_disk = &journal.watch();
    thread::scope(|scope| {
        let records = scope.spawn(move || {
            let mut frames = iter::from_fn(|| ear.next_frame()); // none once all have left
            frames.try_for_each(|frame| journal.write(&frame))
        });
        let start = |replica| scope.spawn(move || work(replica, times, on_disk));
        let workers: Vec<_> = replicas.into_iter().map(start).collect();
        let sum = |map: &Map| map.0.values().sum::<u64>();
        for worker in workers {
            let map = worker.join().expect("a panic")?;
            assert_eq!(sum(&map), sum(&state) + 3 * times);
        }
        records.join().expect("a panic")?;
        println!("{} more than {}", 3 * times, sum(&state));
        Ok(())
    })
}

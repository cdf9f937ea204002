//! Three workers count, and what they say is on disk. A run replays the journals of those before
//! it, and goes on with their numbers in a file of its own: `cargo run --bin journal FOLDER` in
//! this folder counts 300 more. Kill it, and run it again. One at a time has a folder: two would
//! give the same numbers.

use kioskbasil::journal::{self, Header, Journal, JournalError, SyncPolicy, Watch};
use kioskbasil::{Bus, Page, Receiver, Sender, Shape, Turn};
use std::{env, error::Error, fs, io, iter, thread};

type Fault = Box<dyn Error + Send + Sync>;

/// Records all frames, up to 100 that are there by one sync.
fn record(mut receiver: Receiver, mut journal: Journal) -> Result<(), JournalError> {
    while let Some(first) = receiver.next_frame() {
        let more = iter::from_fn(|| receiver.try_frame());
        for frame in iter::once(first).chain(more).take(100) {
            journal.write(&frame)?;
        }
        journal.sync()?;
    }
    Ok(())
}

fn work(mut sender: Sender, on_disk: &Watch) -> Result<(), Fault> {
    for _ in 0..100 {
        let number = sender.put(b"one more")?;
        match sender.send_when_room(|| true)? {
            Some(Turn::Delivered { .. }) => on_disk.wait(sender.words())?,
            other => return Err(format!("not sent: {other:?}").into()),
        }
        println!("worker {} has counted {}", sender.number(), number + 1);
    }
    Ok(())
}

/// One above the greatest number of a file of a folder.
fn files(folder: &str) -> io::Result<u32> {
    let names = fs::read_dir(folder)?.collect::<Result<Vec<_>, _>>()?;
    let number = |name: &str| name.strip_prefix("journal.")?.parse::<u32>().ok();
    let numbers = names
        .iter()
        .filter_map(|it| number(it.file_name().to_str()?));
    Ok(numbers.max().map_or(0, |last| last + 1))
}

/// What the journals of a folder say: the page of the next bus, how many messages there are, and
/// the path of the next file. What a crash has torn is passed over. Err names a file that is
/// missing, or that has no page behind the one before.
fn recover(folder: &str) -> Result<(Page, usize, String), Fault> {
    let file = |number| format!("{folder}/journal.{number}");
    let (mut page, mut count, many) = (Page::from_numbers(&[0])?, 0, files(folder)?);
    for number in 0..many {
        let read = journal::read(file(number))?;
        let next = read.page_after(&page);
        page = next.map_err(|why| format!("{}: {why}", file(number)))?;
        count += read.items().count();
    }
    Ok((page, count, file(many)))
}

fn main() -> Result<(), Fault> {
    let folder = env::args().nth(1).ok_or("usage: journal FOLDER")?;
    fs::create_dir_all(&folder)?;
    let (page, count, path) = recover(&folder)?;
    let mut shape = Shape::of(3, 1);
    shape.ring = true;
    let (senders, mut ears) = Bus::open_after(shape, page)?;
    let journal = Journal::create(path, Header::after(3, &page)?, SyncPolicy::Never)?;
    let (watch, ear) = (&journal.watch(), ears.remove(0));
    senders[0].end_with_senders(); // so the recording ends too
    thread::scope(|scope| {
        let records = scope.spawn(|| record(ear, journal));
        let start = |sender| scope.spawn(move || work(sender, watch));
        for worker in senders.into_iter().map(start).collect::<Vec<_>>() {
            worker.join().expect("a panic")?;
        }
        records.join().expect("a panic")?;
        println!("300 more than {count}");
        Ok(())
    })
}

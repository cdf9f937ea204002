//! Tasks of tokio over a bus: four send, and two hear all as a stream. Then three that each send and
//! hear share a small ring, and wait for its room. They run by one thread, and then by four.
//! `cargo run` in this folder runs it. By Debian's packages librust-tokio-dev and
//! librust-futures-util-dev it needs no network, as `bench/embed` calls it.

use futures_util::future::poll_fn;
use futures_util::stream::{self, StreamExt};
use kioskbasil::{Bus, Item, NeverFits, Receiver, Sender, Shape, Turn};
use std::error::Error;
use std::sync::atomic::{AtomicUsize, Ordering};
use std::sync::Arc;
use std::task::Poll;
use std::time::Duration;
use tokio::runtime::Builder;
use tokio::time::timeout;

type Fault = Box<dyn Error + Send + Sync>;

const SENDERS: usize = 4;
const MESSAGES: u8 = 200;
const WORKERS: usize = 3;

/// Where a worker fails the others would wait for the end for good.
const LONGEST: Duration = Duration::from_secs(60);

/// Sends all, and gives the sender back.
async fn send(mut sender: Sender) -> Result<Sender, Fault> {
    let number = sender.number();
    let messages = (0..MESSAGES).map(|i| [number, i]);
    sender.send_all_async(messages).await?;
    Ok(sender)
}

/// Hears all, as a stream.
async fn hear(mut receiver: Receiver) -> (Receiver, Vec<Item>) {
    let items = stream::poll_fn(|context| receiver.poll_item(context));
    let heard = items.collect().await;
    (receiver, heard)
}

/// A whole sitting; how many items each receiver heard.
async fn sitting() -> Result<usize, Fault> {
    let (senders, mut receivers) = Bus::open(Shape::of(SENDERS, 2))?;
    // A task may give up waiting: here nothing was sent yet.
    let early = timeout(Duration::from_millis(5), receivers[0].next_item_async());
    if early.await.is_ok() {
        return Err("an item that nobody sent".into());
    }
    let hearing: Vec<_> = receivers
        .into_iter()
        .map(|receiver| tokio::spawn(hear(receiver)))
        .collect();
    let sending: Vec<_> = senders
        .into_iter()
        .map(|sender| tokio::spawn(send(sender)))
        .collect();
    let mut senders = Vec::new();
    for task in sending {
        senders.push(task.await??);
    }
    senders[0].end_order_async().await?;
    let (mut receivers, mut heard) = (Vec::new(), Vec::new());
    for task in hearing {
        let (receiver, items) = task.await?;
        receivers.push(receiver);
        heard.push(items);
    }
    Bus::end(senders, receivers)?;
    if heard[0] != heard[1] {
        return Err("two receivers heard two orders".into());
    }
    Ok(heard[0].len())
}

/// Sends what waits, and hears meanwhile: each poll first hears all that there is.
async fn send_and_hear(
    sender: &mut Sender,
    receiver: &mut Receiver,
    heard: &mut Vec<Item>,
) -> Result<Turn, NeverFits> {
    poll_fn(|context| {
        while let Poll::Ready(Some(item)) = receiver.poll_item(context) {
            heard.push(item);
        }
        sender.poll_send_when_room(context)
    })
    .await
}

/// A worker: it sends and hears up to the end, which the last one that has sent all makes.
async fn work(
    mut sender: Sender,
    mut receiver: Receiver,
    sending: Arc<AtomicUsize>,
) -> Result<Vec<Item>, Fault> {
    let mut heard = Vec::new();
    for message in 0..MESSAGES {
        sender.put(&[sender.number(), message])?;
        match send_and_hear(&mut sender, &mut receiver, &mut heard).await? {
            Turn::Delivered { .. } => {}
            turn => return Err(turn.to_string().into()),
        }
    }
    if sending.fetch_sub(1, Ordering::SeqCst) == 1 {
        sender.close()?;
        send_and_hear(&mut sender, &mut receiver, &mut heard).await?;
    }
    while let Some(item) = receiver.next_item_async().await {
        heard.push(item);
    }
    Ok(heard)
}

/// Workers over a ring; how many items each heard.
async fn workers() -> Result<usize, Fault> {
    let (senders, receivers) = Bus::open_ring(Shape {
        log_words: 16,
        batch: 1,
        ..Shape::of(WORKERS, WORKERS)
    })?;
    let sending = Arc::new(AtomicUsize::new(WORKERS));
    let working: Vec<_> = senders
        .into_iter()
        .zip(receivers)
        .map(|(sender, receiver)| tokio::spawn(work(sender, receiver, sending.clone())))
        .collect();
    let mut heard = Vec::new();
    for task in working {
        heard.push(task.await??);
    }
    if heard.iter().any(|items| *items != heard[0]) {
        return Err("two workers heard two orders".into());
    }
    Ok(heard[0].len())
}

fn main() -> Result<(), Fault> {
    let one = Builder::new_current_thread().enable_time().build()?;
    let four = Builder::new_multi_thread()
        .worker_threads(4)
        .enable_time()
        .build()?;
    for runtime in [one, four] {
        let heard = runtime.block_on(sitting())?;
        if heard != SENDERS * usize::from(MESSAGES) {
            return Err("items are lost".into());
        }
        println!("{SENDERS} tasks sent, and 2 heard {heard} items in one order");
        let heard = runtime.block_on(async { timeout(LONGEST, workers()).await })??;
        if heard != WORKERS * usize::from(MESSAGES) {
            return Err("items are lost".into());
        }
        println!("{WORKERS} tasks sent and heard {heard} items over a ring of 16 words");
    }
    Ok(())
}

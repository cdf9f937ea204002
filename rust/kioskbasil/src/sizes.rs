//! What a sitting takes of a bus whose log is no ring, as sums. `u64::MAX` stands for all that 64
//! bits cannot count.

use crate::LOG_MESSAGES;

/// How many batches of at most 16, which are the most without a ring, a sender makes of so many
/// messages.
fn batches(messages: u64) -> u64 {
    let most = LOG_MESSAGES as u64;
    messages / most + u64::from(messages % most != 0)
}

/// How many tenures a sitting takes in which each of so many senders sends so many messages, in
/// batches of 16 of which the last may be smaller, and one closes: the `rows` of its shape, where
/// rows are not used again. A leave takes one more. `u64::MAX` where 64 bits cannot count them.
///
/// ```
/// assert_eq!(kioskbasil::tenures_needed(3, 100), 22);
/// ```
pub fn tenures_needed(senders: u64, messages: u64) -> u64 {
    senders.saturating_mul(batches(messages)).saturating_add(1)
}

/// How many log words such a sitting takes where each message has so many bytes: the `log_words` of
/// its shape, at least 16. A leave takes two more. `u64::MAX` where 64 bits cannot count them.
///
/// ```
/// use kioskbasil::{words_needed, Bus, Shape};
///
/// let mut shape = Shape::of(1, 1);
/// shape.log_words = words_needed(1, 100, 8).max(16);
/// let (mut senders, receivers) = Bus::open(shape)?;
/// senders[0].send_all([b"8 bytes!"; 100])?;
/// senders[0].end_order()?;
/// assert_eq!(Bus::end(senders, receivers)?.log.len() as u64, shape.log_words);
/// # Ok::<(), Box<dyn std::error::Error>>(())
/// ```
pub fn words_needed(senders: u64, messages: u64, bytes: u64) -> u64 {
    let each = 1 + bytes / 8 + u64::from(bytes % 8 != 0);
    let of_each = batches(messages).saturating_add(messages.saturating_mul(each));
    senders.saturating_mul(of_each).saturating_add(2)
}

/// How many words of a log of so many may be in use when one of so many senders begins a batch or a
/// leave, so that the end mark still fits, whatever the others do; 0 where there is no such number.
/// So each sender looks at its own `words` right before it puts or leaves, and begins nothing above
/// this number.
///
/// ```
/// use kioskbasil::{room_to_close, Bus, Shape, Turn};
///
/// let mut shape = Shape::of(2, 1);
/// shape.log_words = 1024;
/// let (mut senders, _receivers) = Bus::open(shape)?;
/// let sender = &mut senders[0];
/// while sender.words() <= room_to_close(shape.log_words, 2) {
///     sender.send_all([[0; 56]; 16])?;
/// }
/// sender.end_order()?;
/// # Ok::<(), Box<dyn std::error::Error>>(())
/// ```
pub fn room_to_close(log_words: u64, senders: u64) -> u64 {
    let frames = senders.saturating_mul(129);
    log_words.saturating_sub(2).saturating_sub(frames)
}

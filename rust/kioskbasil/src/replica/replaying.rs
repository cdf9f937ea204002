//! Replays what was recorded of replicas.

use super::State;
use crate::long::{begun, join, Begun};
use crate::{Frame, NotLong, MOST_LONG_BYTES};

/// Applies the operations of these frames to a state, in their order: `read.frames()` of what
/// `journal::read` gave. Several journals, one of each sitting, are replayed in their order by a
/// call for each. What is damaged is not among the frames. `Recovered::page_after` refuses such a
/// file, and one that does not go on from the page before: so ask that first.
///
/// `NotLong` has the first item that is no operation; all before that is applied. It is no piece of
/// one, or the other pieces do not follow. All of an operation stand in one frame, so pieces of two
/// frames are never joined: where a frame ends within an operation, its first piece is refused.
///
/// ```
/// use kioskbasil::replica::{replay, State};
/// use kioskbasil::{Bus, NotLong, Shape};
///
/// struct Bytes(Vec<u8>);
/// impl State for Bytes {
///     type Answer = ();
///     fn apply(&mut self, _from: u32, operation: &[u8]) {
///         self.0.extend_from_slice(operation);
///     }
/// }
///
/// let (mut senders, mut receivers) = Bus::open(Shape::of(1, 1))?;
/// senders[0].put_long(b"an operation")?;
/// senders[0].put(b"something else")?;
/// let _ = senders[0].send();
/// let frames = [receivers[0].try_frame().unwrap()];
/// let mut bytes = Bytes(Vec::new());
/// let NotLong(item) = replay(&mut bytes, &frames).unwrap_err();
/// assert_eq!((&item[..], &bytes.0[..]), (&b"something else"[..], &b"an operation"[..]));
/// # Ok::<(), Box<dyn std::error::Error>>(())
/// ```
pub fn replay<S: State>(state: &mut S, frames: &[Frame]) -> Result<(), NotLong> {
    let mut joined = [0; MOST_LONG_BYTES];
    for frame in frames {
        let mut items = frame.items();
        while let Some(first) = items.first() {
            let many = match begun(items) {
                Begun::Whole(many) => many,
                Begun::Part | Begun::NoPiece => return Err(NotLong(*first)),
            };
            let (pieces, rest) = items.split_at(many);
            state.apply(u32::from(first.sender), join(pieces, &mut joined));
            items = rest;
        }
    }
    Ok(())
}

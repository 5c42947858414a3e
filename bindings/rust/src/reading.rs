//! What is told without a search. A world and a reader tell the same, so each call stands once.

use crate::asking::counted;
use crate::library;
use crate::reader::Reader;
use crate::values::{told, Error, Handle, Info, Live, Pair, Told};
use crate::world::World;
use crate::SLOTS;

// All that a call copies, if so many are expected: one call if no more are there, and else again for those behind, since the pairs
// after a way back are those of an earlier frame.
fn listed<Item: Copy + Default>(
    expected: usize,
    mut copy: impl FnMut(usize, &mut [Item]) -> Result<usize, Error>,
) -> Result<Vec<Item>, Error> {
    let mut all = Vec::new();
    let mut room = expected + 1;
    loop {
        let from = all.len();
        all.try_reserve_exact(room).map_err(|_| Error::NoMemory)?;
        all.resize(from + room, Item::default());
        let copied = copy(from, &mut all[from..])?;
        all.truncate(from + copied);
        if copied < room {
            return Ok(all);
        }
        room = all.len();
    }
}

macro_rules! readings {
    ($asked:ident by $calls:ident) => {
        impl $asked {
            /// The live box that has a handle, or `Stale`.
            pub fn get(&mut self, handle: Handle) -> Result<Live, Error> {
                let mut out = Live::default();
                // SAFETY: the words are those that the last call left; `out` is a value of its own.
                told(unsafe { library::$calls::get(&mut self.held, handle, &mut out) })?;
                Ok(out)
            }

            /// The live box in a slot with its handle, or `Stale`, as in each slot from `SLOTS` on.
            pub fn at(&mut self, slot: u32) -> Result<(Handle, Live), Error> {
                let (mut handle, mut out) = (Handle::NONE, Live::default());
                // SAFETY: the words are those that the last call left; `handle` and `out` are values of their own.
                told(unsafe { library::$calls::at(&mut self.held, slot, &mut handle, &mut out) })?;
                Ok((handle, out))
            }

            /// All live boxes with their handles, by their slots.
            pub fn boxes(&mut self) -> impl Iterator<Item = (Handle, Live)> + '_ {
                (0..SLOTS as u32).filter_map(|slot| self.at(slot).ok())
            }

            /// Copies the pairs of the last frame from number `from` on, in order, and tells how many those are.
            pub fn pairs(&mut self, from: usize, out: &mut [Pair]) -> Result<usize, Error> {
                let mut copied = 0;
                // SAFETY: the words are those that the last call left; the pointer leads to as many items as the length says.
                let status = unsafe { library::$calls::pairs(&mut self.held, from, out.as_mut_ptr(), out.len(), &mut copied) };
                counted(status, copied)
            }

            /// All pairs of the last frame, in a list of their own. `NoMemory` if there is no memory for it.
            pub fn all_pairs(&mut self) -> Result<Vec<Pair>, Error> {
                listed(self.counts.pairs, |from, out| self.pairs(from, out))
            }

            /// Copies what the last update told from number `from` on: its pairs, and then those that are over. It takes a step for each
            /// event before `from` too.
            pub fn events(&mut self, from: usize, out: &mut [Told]) -> Result<usize, Error> {
                let mut copied = 0;
                // SAFETY: the words are those that the last call left; the pointer leads to as many items as the length says.
                let status = unsafe { library::$calls::events(&mut self.held, from, out.as_mut_ptr(), out.len(), &mut copied) };
                counted(status, copied)
            }

            /// All that the last update told, in a list of its own. `NoMemory` if there is no memory for it.
            pub fn all_events(&mut self) -> Result<Vec<Told>, Error> {
                listed(self.counts.events, |from, out| self.events(from, out))
            }

            /// Copies what the last update told of pairs that didn't stay, from number `from` on: those that began, and then those that are
            /// over. No pair that stayed costs a step.
            pub fn changes(&mut self, from: usize, out: &mut [Told]) -> Result<usize, Error> {
                let mut copied = 0;
                // SAFETY: the words are those that the last call left; the pointer leads to as many items as the length says.
                let status = unsafe { library::$calls::changes(&mut self.held, from, out.as_mut_ptr(), out.len(), &mut copied) };
                counted(status, copied)
            }

            /// All that the last update told of pairs that didn't stay, in a list of its own. `NoMemory` if there is no memory for it.
            pub fn all_changes(&mut self) -> Result<Vec<Told>, Error> {
                listed(self.counts.changes, |from, out| self.changes(from, out))
            }

            /// What the world is.
            pub fn info(&mut self) -> Result<Info, Error> {
                let mut out = Info::default();
                // SAFETY: the words are those that the last call left; `out` is a value of its own.
                told(unsafe { library::$calls::info(&mut self.held, &mut out) })?;
                Ok(out)
            }
        }
    };
}

readings!(World by of_world);
readings!(Reader by of_reader);

//! The owner of a world.

use crate::asking::counted;
use crate::library::{self, Held};
use crate::values::{told, Body, Error, Frame, Group, Handle, How, Masks, Pair, Stopped, Structure};

/// Moving boxes under handles. It is open for as long as it lives, and closed when it is dropped.
pub struct World {
    pub(crate) held: Held,
    // What the last update counted, which is how much room a list of its answers takes.
    pub(crate) counts: Frame,
}

// SAFETY: a world's memory is reached by its two words alone, is plain data of no thread, and comes from a heap that any thread may
// free to. The library has no state of its own.
unsafe impl Send for World {}

// What a batch came to.
pub(crate) fn ended(status: u32, done: usize) -> Result<(), Stopped> {
    told(status).map_err(|error| Stopped { done, error })
}

impl World {
    /// A world with no box. It refuses with `NoMemory` alone.
    pub fn new(structure: Structure) -> Result<World, Error> {
        let mut world = World { held: Held::CLOSED, counts: Frame::default() };
        // SAFETY: the words are those of a closed world.
        told(unsafe { library::pw_open(&mut world.held, structure as u32) })?;
        Ok(world)
    }

    /// Adds a box, under the least free slot: `Inverted`, `Full`, `Exhausted` or `NoMemory`.
    pub fn add(&mut self, body: Body, how: How) -> Result<Handle, Error> {
        let mut handle = [Handle::default()];
        self.add_all(&[body], how, &mut handle).map_err(|stopped| stopped.error)?;
        Ok(handle[0])
    }

    /// Adds boxes in order, up to the first that is refused. The handles of those that came are the first of `out`. `Argument`, and
    /// no box is added, if `out` is shorter than `bodies`.
    pub fn add_all(&mut self, bodies: &[Body], how: How, out: &mut [Handle]) -> Result<(), Stopped> {
        let mut done = 0;
        // SAFETY: the words are those that the last call left; each pointer leads to as many items as the length beside it says.
        let status =
            unsafe { library::pw_add(&mut self.held, bodies.as_ptr(), bodies.len(), &how, out.as_mut_ptr(), out.len(), &mut done) };
        ended(status, done)
    }

    /// Gives a box another body: `Inverted`, `Stale`, `Exhausted` or `NoMemory`.
    pub fn shift(&mut self, handle: Handle, body: Body) -> Result<(), Error> {
        self.shift_all(&[handle], &[body]).map_err(|stopped| stopped.error)
    }

    /// Moves boxes in order, each with its handle, up to the first that is refused. `Argument`, and no box is moved, if the lengths
    /// differ.
    pub fn shift_all(&mut self, handles: &[Handle], bodies: &[Body]) -> Result<(), Stopped> {
        let mut done = 0;
        // SAFETY: the words are those that the last call left; each pointer leads to as many items as the length beside it says.
        let status = unsafe { library::pw_move(&mut self.held, handles.as_ptr(), handles.len(), bodies.as_ptr(), bodies.len(), &mut done) };
        ended(status, done)
    }

    /// Gives a box other masks: `Stale` or `NoMemory`.
    pub fn mask(&mut self, handle: Handle, masks: Masks) -> Result<(), Error> {
        // SAFETY: the words are those that the last call left; all else is passed by value.
        told(unsafe { library::pw_mask(&mut self.held, handle, masks) })
    }

    /// Gives a box another owner and fixed mark: `Stale` or `NoMemory`.
    pub fn regroup(&mut self, handle: Handle, group: Group) -> Result<(), Error> {
        // SAFETY: the words are those that the last call left; all else is passed by value.
        told(unsafe { library::pw_regroup(&mut self.held, handle, group) })
    }

    /// Removes a box: `Stale` or `NoMemory`.
    pub fn remove(&mut self, handle: Handle) -> Result<(), Error> {
        self.remove_all(&[handle]).map_err(|stopped| stopped.error)
    }

    /// Removes boxes in order, up to the first that is refused.
    pub fn remove_all(&mut self, handles: &[Handle]) -> Result<(), Stopped> {
        let mut done = 0;
        // SAFETY: the words are those that the last call left; the pointer leads to as many items as the length says.
        let status = unsafe { library::pw_remove(&mut self.held, handles.as_ptr(), handles.len(), &mut done) };
        ended(status, done)
    }

    /// Ends the frame, and tells how many pairs, events and changes it has: `Exhausted` or `NoMemory`, and then all is as before.
    pub fn update(&mut self) -> Result<Frame, Error> {
        let mut counts = Frame::default();
        // SAFETY: the words are those that the last call left; `counts` is a value of its own.
        told(unsafe { library::pw_update(&mut self.held, &mut counts) })?;
        self.counts = counts;
        Ok(counts)
    }

    /// Tells how many pairs the frame would have if it ended now, and copies those from number `from` on, in order, as many as there is
    /// room for. The frame goes on, and what the last one told stays. It searches as [`World::update`] does. `NoMemory`.
    pub fn pairs_now(&mut self, from: usize, out: &mut [Pair]) -> Result<usize, Error> {
        let mut count = 0;
        // SAFETY: the words are those that the last call left; the pointer leads to as many items as the length says.
        let status = unsafe { library::pw_pairs_now(&mut self.held, from, out.as_mut_ptr(), out.len(), &mut count) };
        counted(status, count)
    }

    /// All pairs that the frame would have if it ended now, in a list of their own. `NoMemory` also if there is no memory for it.
    pub fn all_pairs_now(&mut self) -> Result<Vec<Pair>, Error> {
        let mut all = Vec::new();
        // They are mostly few more than those of the last frame, so one search mostly tells them all.
        let mut room = self.counts.pairs + self.counts.pairs / 8 + 8;
        loop {
            all.try_reserve_exact(room - all.len()).map_err(|_| Error::NoMemory)?;
            all.resize(room, Pair::default());
            let count = self.pairs_now(0, &mut all)?;
            if count <= room {
                all.truncate(count);
                return Ok(all);
            }
            room = count;
        }
    }

    /// Marks the world as it stands, for rollback. `Full` if 64 marks are held.
    pub fn mark(&mut self) -> Result<(), Error> {
        // SAFETY: the words are those that the last call left.
        told(unsafe { library::pw_mark(&mut self.held) })
    }

    /// Gives up the oldest marks, so many of them: the world as it stands and the newer marks are as before. `NoMark` if fewer are held.
    pub fn forget(&mut self, count: u32) -> Result<(), Error> {
        // SAFETY: the words are those that the last call left; all else is passed by value.
        told(unsafe { library::pw_forget(&mut self.held, count) })
    }

    /// Goes back to the newest mark, which is then gone. `NoMark` if no mark is held.
    pub fn back(&mut self) -> Result<(), Error> {
        // SAFETY: the words are those that the last call left.
        told(unsafe { library::pw_back(&mut self.held) })
    }
}

impl std::fmt::Debug for World {
    fn fmt(&self, to: &mut std::fmt::Formatter<'_>) -> std::fmt::Result {
        to.debug_struct("World").finish_non_exhaustive()
    }
}

impl Drop for World {
    fn drop(&mut self) {
        // SAFETY: the words are those that the last call left, or zero if opening was refused. No call comes later.
        unsafe { library::pw_close(&mut self.held) };
    }
}

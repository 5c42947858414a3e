//! The readers of a world, by which several threads ask it at once.

use crate::library::{self, Held, HeldReader};
use crate::values::{told, Error, Frame};
use crate::world::World;

/// What the questions of a reader work in. A reader has one of its own; it grows to what the questions need, and is kept from one to the
/// next. [`Reader::leave_room`] keeps it for the readers of the next tick, which then ask the heap for nothing.
pub struct Room {
    held: HeldReader,
}

/// One of the readers of a world: it asks, by the same calls as the world, while others ask on other threads.
///
/// [`World::share`] gives a world to its first reader, and [`Reader::join`] makes another one. The world is nobody's to change from then
/// on. The last reader that leaves has it back, as it was. If readers leave at once on several threads, just one of them has it. A reader
/// that is dropped leaves too; if it is the last one the world is closed.
///
/// ```no_run
/// # fn main() -> Result<(), pungwelair::Error> {
/// use pungwelair::{Point, Ray, Structure, World};
/// let mut world = World::new(Structure::Tree)?;
/// world.update()?;
/// let ray = Ray { mask: 1, from: Point::new(0, 0, 0), direction: Point::new(1, 0, 0) };
///
/// let mut first = world.share()?;
/// let mut readers = vec![first.join()?, first.join()?, first.join()?, first];
/// std::thread::scope(|scope| {
///     for reader in &mut readers {
///         scope.spawn(move || reader.ray_first(ray));
///     }
/// });
/// // All leave, and the last one brings the world.
/// let world = readers.into_iter().filter_map(|reader| reader.leave()).last();
/// # Ok(())
/// # }
/// ```
///
/// A reader may go to another thread between its calls, and answers one call at a time: it is `Send` and not `Sync`.
///
/// ```compile_fail,E0277
/// fn is_asked_by_several<T: Sync>() {}
/// is_asked_by_several::<pungwelair::Reader>();
/// ```
pub struct Reader {
    pub(crate) held: HeldReader,
    // What the last update of the world counted, which is how much room a list of its answers takes.
    pub(crate) counts: Frame,
}

// SAFETY: a reader's own memory is reached by its two words alone, and comes from a heap that any thread may free to. What it has in
// common with others is a world that none of them changes and a count of its readers, which is atomic: the last one that leaves takes the
// world out when all others are through with it. That what the words hold is `Send` in that sense is a law of the library's proof.
// `Sync` it isn't, and nobody would gain by it: each call, those that only ask too, takes what it holds out of the words, puts it back,
// and writes to the room. So each takes `&mut self`.
unsafe impl Send for Reader {}

// SAFETY: as a reader that has no world.
unsafe impl Send for Room {}

/// A world that couldn't be given to a reader, and why.
#[derive(Debug)]
pub struct NotShared {
    /// The world, as it was.
    pub world: World,
    /// `NoMemory`.
    pub error: Error,
}

impl std::fmt::Display for NotShared {
    fn fmt(&self, to: &mut std::fmt::Formatter<'_>) -> std::fmt::Result {
        write!(to, "the world has no reader: {}", self.error)
    }
}

impl std::error::Error for NotShared {
    fn source(&self) -> Option<&(dyn std::error::Error + 'static)> {
        Some(&self.error)
    }
}

impl From<NotShared> for Error {
    /// The reason alone: the world is dropped.
    fn from(refused: NotShared) -> Error {
        refused.error
    }
}

impl Room {
    /// Room that has not grown yet. It refuses with `NoMemory` alone.
    pub fn new() -> Result<Room, Error> {
        let mut room = Room { held: HeldReader::CLOSED };
        // SAFETY: the words are those of a closed reader.
        told(unsafe { library::pw_reader_open(&mut room.held) })?;
        Ok(room)
    }

    // What it holds, which is somebody else's to close from then on.
    fn taken(mut self) -> HeldReader {
        std::mem::replace(&mut self.held, HeldReader::CLOSED)
    }
}

impl World {
    /// Gives the world to a reader, by which one thread asks it while others do by readers that [join](Reader::join) this one. `NoMemory`,
    /// and then the world is given back.
    pub fn share(self) -> Result<Reader, NotShared> {
        match Room::new() {
            Ok(room) => self.share_in(room),
            Err(error) => Err(NotShared { world: self, error }),
        }
    }

    /// The same in room that is kept from earlier readers.
    pub fn share_in(mut self, room: Room) -> Result<Reader, NotShared> {
        let mut reader = Reader { held: room.taken(), counts: self.counts };
        // SAFETY: the words of both are those that the last call left.
        match told(unsafe { library::pw_share(&mut self.held, &mut reader.held) }) {
            Ok(()) => Ok(reader),
            Err(error) => Err(NotShared { world: self, error }),
        }
    }
}

impl Reader {
    /// Another reader of the same world. `NoMemory`.
    pub fn join(&mut self) -> Result<Reader, Error> {
        self.join_in(Room::new()?)
    }

    /// The same in room that is kept from earlier readers, for which no memory is taken. It refuses only if 2^63 readers read the world.
    pub fn join_in(&mut self, room: Room) -> Result<Reader, Error> {
        let mut other = Reader { held: room.taken(), counts: self.counts };
        // SAFETY: the words of both are those that the last call left.
        told(unsafe { library::pw_join(&mut self.held, &mut other.held) })?;
        Ok(other)
    }

    /// Reads no more. The last reader of a world has it back, and `None` comes while others read it.
    pub fn leave(mut self) -> Option<World> {
        self.left()
    }

    /// The same, and keeps the room for a later reader.
    pub fn leave_room(mut self) -> (Option<World>, Room) {
        let world = self.left();
        (world, Room { held: std::mem::replace(&mut self.held, HeldReader::CLOSED) })
    }

    // From then on it has no world, and to leave once more gives none.
    fn left(&mut self) -> Option<World> {
        let mut world = World { held: Held::CLOSED, counts: self.counts };
        // SAFETY: the words are those that the last call left, and those of a closed world.
        told(unsafe { library::pw_unshare(&mut self.held, &mut world.held) }).ok().map(|()| world)
    }
}

impl std::fmt::Debug for Room {
    fn fmt(&self, to: &mut std::fmt::Formatter<'_>) -> std::fmt::Result {
        to.debug_struct("Room").finish_non_exhaustive()
    }
}

impl std::fmt::Debug for Reader {
    fn fmt(&self, to: &mut std::fmt::Formatter<'_>) -> std::fmt::Result {
        to.debug_struct("Reader").finish_non_exhaustive()
    }
}

impl Drop for Room {
    fn drop(&mut self) {
        // SAFETY: the words are those that the last call left, or zero if opening was refused or they were taken out. No call comes later.
        unsafe { library::pw_reader_close(&mut self.held) };
    }
}

impl Drop for Reader {
    fn drop(&mut self) {
        // A reader that reads isn't closed.
        drop(self.left());
        // SAFETY: the words are those that the last call left, or zero if they were taken out. No call comes later.
        unsafe { library::pw_reader_close(&mut self.held) };
    }
}

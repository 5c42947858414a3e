//! Pungwelair's broad phase for Rust: which of many moving boxes meet, and which of them a question finds.
//!
//! It is proved that a world's answers are those of testing every live box, and every two of them, whatever structure keeps them.
//! This crate is the edge to that library: every call is safe, takes any numbers, and answers or refuses. No call panics.
//!
//! Every call takes `&mut self`, those that only ask too. The library has a buffer of its own in each world for what a question
//! finds, and its exports say that one call at a time has a world. So a `World` is `Send` and not `Sync`. Each thread may have
//! worlds of its own. Several threads ask one world at once by a [`Reader`] each: [`World::share`] gives the world to the first of them,
//! and the last one that leaves has it back.
//!
//! An answer goes into a slice of the caller's, and its call takes no memory of this side. The call whose name begins with `all_` gives a
//! list with the whole of it, and `NoMemory` if there is no memory for it. The calls whose names end in `_each` ask many questions at once.
//!
//! ```no_run
//! # fn main() -> Result<(), pungwelair::Error> {
//! use pungwelair::{box_around, Handle, How, Structure, World};
//! let mut world = World::new(Structure::Tree)?;
//! let boxes = [box_around([0.0, 0.0, 0.0], [1.0, 1.0, 1.0])?, box_around([5.0, 0.0, 0.0], [6.0, 1.0, 1.0])?];
//! let mut handles = [Handle::NONE; 2];
//! world.add_all(&boxes, How::default(), &mut handles)?;
//! world.shift(handles[0], box_around([4.5, 0.0, 0.0], [5.5, 1.0, 1.0])?)?;
//! world.update()?;
//! for change in world.all_changes()? {
//!     println!("{:?} of slots {} and {}", change.event(), change.pair.a.slot, change.pair.b.slot);
//! }
//! # Ok(())
//! # }
//! ```
//!
//! # The library
//!
//! What this crate calls is `libpungwelair.a`. `bindings/build` of Pungwelair's repository makes it and puts it into `bindings/out`, where
//! the crate finds it if it stands in that repository. Elsewhere the variable `PUNGWELAIR_LIB` names the folder that has it, by an
//! absolute path, as the `lib` of the folder into which `bindings/install` puts it. Without it the crate is checked and documented all
//! the same, and a linker asks in vain for `pungwelair_of_bindings_build_or_PUNGWELAIR_LIB`.

#![deny(missing_docs)]

mod asking;
mod library;
mod reader;
mod reading;
mod values;
mod world;

pub use reader::{NotShared, Reader, Room};
pub use values::{
    box_around, box_around_cut, box_around_cut_f64, box_around_f64, fix_above, fix_above_f64, fix_below, fix_below_f64, Answers, Body,
    Cast, Error, Event, Frame, Group, Handle, Hit, How, Info, Live, Masks, Near, NearBox, Pair, Point, Query, Question, Ray, Side, Stopped,
    Structure, Told,
};
pub use world::World;

/// The version of the library that runs, as one number: a million times its major number, a thousand times its minor one, and its patch
/// number.
pub fn version() -> u32 {
    // SAFETY: it takes nothing.
    unsafe { library::pw_version() }
}

/// The most boxes that live at once. Slots are below it, so a slice of this length has room for the answer to any question. (There may be
/// more pairs, events and changes.)
pub const SLOTS: usize = 8192;

/// The most marks that a world holds.
pub const MOST_MARKS: usize = 64;

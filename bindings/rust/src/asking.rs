//! The questions. A world and a reader answer the same, so each of them stands once.

use crate::library;
use crate::reader::Reader;
use crate::values::{told, Answers, Cast, Error, Handle, Hit, Near, NearBox, Point, Query, Question, Ray, Square, Stopped};
use crate::world::{ended, World};
use crate::{Body, SLOTS};

// How many ways `all_ray_first_each` and `all_cast_first_each` ask by one call: as many hits as stand on the stack.
const WAYS: usize = 64;

// A count, if the call that told it was answered.
pub(crate) fn counted(status: u32, count: usize) -> Result<usize, Error> {
    told(status).map(|()| count)
}

// The hit that a call told of, if there is one.
fn first(status: u32, count: usize, hit: Hit) -> Result<Option<Hit>, Error> {
    Ok((counted(status, count)? > 0).then_some(hit))
}

// All that a question finds, which is asked once: there is room for any answer.
fn found(ask: impl FnOnce(*mut Handle, &mut usize) -> u32) -> Result<Vec<Handle>, Error> {
    let mut all = Vec::new();
    all.try_reserve_exact(SLOTS).map_err(|_| Error::NoMemory)?;
    let mut count = 0;
    told(ask(all.as_mut_ptr(), &mut count))?;
    // SAFETY: the list has room for so many, and the call wrote the first `count` of them.
    unsafe { all.set_len(count.min(SLOTS)) };
    all.shrink_to_fit();
    Ok(all)
}

// Makes a list as long as that. No question behind it was asked.
fn lengthened<Item: Clone>(list: &mut Vec<Item>, length: usize, item: Item) -> Result<(), Stopped> {
    list.try_reserve_exact(length.saturating_sub(list.len())).map_err(|_| Stopped { done: 0, error: Error::NoMemory })?;
    list.resize(length, item);
    Ok(())
}

// All that so many questions find, which are mostly asked once: again only if they find more than there are slots.
fn found_each(questions: usize, mut ask: impl FnMut(&mut [Handle], &mut [usize]) -> Result<usize, Stopped>) -> Result<Answers, Stopped> {
    let mut answers = Answers::default();
    let mut room = SLOTS;
    lengthened(&mut answers.ends, questions, 0)?;
    loop {
        lengthened(&mut answers.handles, room, Handle::NONE)?;
        let count = ask(&mut answers.handles, &mut answers.ends)?;
        if count <= room {
            answers.handles.truncate(count);
            answers.handles.shrink_to_fit();
            return Ok(answers);
        }
        room = count;
    }
}

// What each of some ways meets first, a few of them by one call.
fn first_each<Way>(ways: &[Way], mut ask: impl FnMut(&[Way], &mut [Hit]) -> Result<(), Stopped>) -> Result<Vec<Option<Hit>>, Stopped> {
    let mut all = Vec::new();
    all.try_reserve_exact(ways.len()).map_err(|_| Stopped { done: 0, error: Error::NoMemory })?;
    let mut hits = [Hit::NONE; WAYS];
    for some in ways.chunks(WAYS) {
        ask(some, &mut hits).map_err(|stopped| Stopped { done: all.len() + stopped.done, ..stopped })?;
        all.extend(hits.iter().take(some.len()).map(|hit| hit.met()));
    }
    Ok(all)
}

macro_rules! questions {
    ($asked:ident by $calls:ident) => {
        impl $asked {
            /// Tells how many boxes that `mask` asks for meet a question, and copies the first of their handles, by slots. With the mask 0
            /// it looks at no group and finds every box, those in no group too; with any other mask it finds boxes that are in one of its
            /// groups. `Argument` comes for an inverted region.
            pub fn hits(&mut self, query: Query, mask: u32, out: &mut [Handle]) -> Result<usize, Error> {
                let (question, mut count) = (Question::new(query, mask), 0);
                // SAFETY: the words are those that the last call left; the pointer leads to as many items as the length says.
                let status = unsafe { library::$calls::hits(&mut self.held, &question, out.as_mut_ptr(), out.len(), &mut count) };
                counted(status, count)
            }

            /// All boxes that `mask` asks for and that meet a question, by slots, in a list of their own. Beside what `hits` refuses
            /// `NoMemory` comes if there is no memory for the list.
            pub fn all_hits(&mut self, query: Query, mask: u32) -> Result<Vec<Handle>, Error> {
                let question = Question::new(query, mask);
                // SAFETY: the words are those that the last call left; the pointer leads to room for as many items as the length says.
                found(|out, count| unsafe { library::$calls::hits(&mut self.held, &question, out, SLOTS, count) })
            }

            /// Asks many questions by one call, in order up to the first that is refused, and tells how many boxes they found in all. The
            /// answers stand one behind another in `out`, each by slots, as many handles as there is room for. The place of `ends` for a
            /// question tells how many handles there are up to the end of its answer, those without room too.
            ///
            /// `Argument`, and nothing is asked, if `ends` is shorter than `questions`; `Argument` too at an inverted region, and
            /// `NoMemory`. The answers of those before it stand in `out` and `ends`.
            pub fn hits_each(&mut self, questions: &[Question], out: &mut [Handle], ends: &mut [usize]) -> Result<usize, Stopped> {
                let mut done = 0;
                // SAFETY: the words are those that the last call left; each pointer leads to as many items as the length beside it says.
                let status = unsafe {
                    library::$calls::hits_each(
                        &mut self.held,
                        questions.as_ptr(),
                        questions.len(),
                        out.as_mut_ptr(),
                        out.len(),
                        ends.as_mut_ptr(),
                        ends.len(),
                        &mut done,
                    )
                };
                ended(status, done)?;
                Ok(ends.iter().take(done).last().copied().unwrap_or(0))
            }

            /// The answers to many questions, in lists of their own. They are asked once more if they find more than `SLOTS` boxes in
            /// all. Beside what `hits_each` refuses `NoMemory` comes, with none done, if there is no memory for the lists.
            pub fn all_hits_each(&mut self, questions: &[Question]) -> Result<Answers, Stopped> {
                found_each(questions.len(), |out, ends| self.hits_each(questions, out, ends))
            }

            /// Tells how many boxes a ray meets, and copies the first of their handles, in the order in which it meets them.
            pub fn ray_hits(&mut self, ray: Ray, out: &mut [Handle]) -> Result<usize, Error> {
                let mut count = 0;
                // SAFETY: the words are those that the last call left; the pointer leads to as many items as the length says.
                let status = unsafe { library::$calls::ray_hits(&mut self.held, &ray, out.as_mut_ptr(), out.len(), &mut count) };
                counted(status, count)
            }

            /// All boxes that a ray meets, in the order in which it meets them, in a list of their own.
            pub fn all_ray_hits(&mut self, ray: Ray) -> Result<Vec<Handle>, Error> {
                // SAFETY: the words are those that the last call left; the pointer leads to room for as many items as the length says.
                found(|out, count| unsafe { library::$calls::ray_hits(&mut self.held, &ray, out, SLOTS, count) })
            }

            /// What a ray meets first, and where: `None` if it meets no box. It looks for no other hit.
            pub fn ray_first(&mut self, ray: Ray) -> Result<Option<Hit>, Error> {
                let (mut hit, mut count) = (Hit::NONE, 0);
                // SAFETY: the words are those that the last call left; `hit` and `count` are values of their own.
                let status = unsafe { library::$calls::ray_first(&mut self.held, &ray, &mut hit, &mut count) };
                first(status, count, hit)
            }

            /// What each of many rays meets first, by one call, each at its place of `out`: [`Hit::NONE`] if it meets no box. They are
            /// asked in order up to the first that is refused, by `NoMemory`, and what is behind it in `out` stays. `Argument`, and
            /// nothing is asked, if `out` is shorter than `rays`.
            pub fn ray_first_each(&mut self, rays: &[Ray], out: &mut [Hit]) -> Result<(), Stopped> {
                let mut done = 0;
                // SAFETY: the words are those that the last call left; each pointer leads to as many items as the length beside it says.
                let status = unsafe {
                    library::$calls::ray_first_each(&mut self.held, rays.as_ptr(), rays.len(), out.as_mut_ptr(), out.len(), &mut done)
                };
                ended(status, done)
            }

            /// What each of many rays meets first, in a list of its own: `None` if it meets no box. Beside what `ray_first_each` refuses
            /// `NoMemory` comes, with none done, if there is no memory for the list.
            pub fn all_ray_first_each(&mut self, rays: &[Ray]) -> Result<Vec<Option<Hit>>, Stopped> {
                first_each(rays, |some, out| self.ray_first_each(some, out))
            }

            /// The box that a ray meets first, and `None` if it meets no box.
            pub fn first_hit(&mut self, ray: Ray) -> Result<Option<Handle>, Error> {
                Ok(self.ray_first(ray)?.map(|hit| hit.handle))
            }

            /// Tells how many boxes a moved box meets, and copies the first of their handles, in the order in which it meets them on its
            /// way. `Inverted` if its corners are.
            pub fn cast_hits(&mut self, cast: Cast, out: &mut [Handle]) -> Result<usize, Error> {
                let mut count = 0;
                // SAFETY: the words are those that the last call left; the pointer leads to as many items as the length says.
                let status = unsafe { library::$calls::cast_hits(&mut self.held, &cast, out.as_mut_ptr(), out.len(), &mut count) };
                counted(status, count)
            }

            /// All boxes that a moved box meets, in the order in which it meets them, in a list of their own. `Inverted` if its corners
            /// are.
            pub fn all_cast_hits(&mut self, cast: Cast) -> Result<Vec<Handle>, Error> {
                // SAFETY: the words are those that the last call left; the pointer leads to room for as many items as the length says.
                found(|out, count| unsafe { library::$calls::cast_hits(&mut self.held, &cast, out, SLOTS, count) })
            }

            /// What a moved box meets first, and where: `None` if it meets no box. `Inverted` if its corners are.
            pub fn cast_first(&mut self, cast: Cast) -> Result<Option<Hit>, Error> {
                let (mut hit, mut count) = (Hit::NONE, 0);
                // SAFETY: the words are those that the last call left; `hit` and `count` are values of their own.
                let status = unsafe { library::$calls::cast_first(&mut self.held, &cast, &mut hit, &mut count) };
                first(status, count, hit)
            }

            /// The same as [`ray_first_each`](Self::ray_first_each) for moved boxes. It stops also at the first whose corners are inverted,
            /// by `Inverted`.
            pub fn cast_first_each(&mut self, casts: &[Cast], out: &mut [Hit]) -> Result<(), Stopped> {
                let mut done = 0;
                // SAFETY: the words are those that the last call left; each pointer leads to as many items as the length beside it says.
                let status = unsafe {
                    library::$calls::cast_first_each(&mut self.held, casts.as_ptr(), casts.len(), out.as_mut_ptr(), out.len(), &mut done)
                };
                ended(status, done)
            }

            /// What each of many moved boxes meets first, in a list of its own: `None` if it meets no box. Beside what `cast_first_each`
            /// refuses `NoMemory` comes, with none done, if there is no memory for the list.
            pub fn all_cast_first_each(&mut self, casts: &[Cast]) -> Result<Vec<Option<Hit>>, Stopped> {
                first_each(casts, |some, out| self.cast_first_each(some, out))
            }

            /// Where a ray meets one live box, whatever groups it asks for: `None` if it doesn't meet it. It looks at no other box.
            /// `Stale`.
            pub fn ray_meets(&mut self, ray: Ray, handle: Handle) -> Result<Option<Hit>, Error> {
                let (mut hit, mut count) = (Hit::NONE, 0);
                // SAFETY: the words are those that the last call left; `hit` and `count` are values of their own.
                let status = unsafe { library::$calls::ray_meets(&mut self.held, &ray, handle, &mut hit, &mut count) };
                first(status, count, hit)
            }

            /// The same for a moved box. `Inverted` if its corners are, which is asked first, and `Stale`.
            pub fn cast_meets(&mut self, cast: Cast, handle: Handle) -> Result<Option<Hit>, Error> {
                let (mut hit, mut count) = (Hit::NONE, 0);
                // SAFETY: the words are those that the last call left; `hit` and `count` are values of their own.
                let status = unsafe { library::$calls::cast_meets(&mut self.held, &cast, handle, &mut hit, &mut count) };
                first(status, count, hit)
            }

            /// The square of the distance of a place from a live box, in raw units squared, exactly: 0 if the box holds it. `Stale`. Its
            /// root, over 65,536, is the distance in units.
            pub fn square_to(&mut self, at: Point, handle: Handle) -> Result<u128, Error> {
                let mut out = Square::default();
                // SAFETY: the words are those that the last call left; `out` is a value of its own.
                told(unsafe { library::$calls::square_to(&mut self.held, &at, handle, &mut out) })?;
                Ok(out.number())
            }

            /// The same of a box: 0 if they have a common point. `Inverted` if its corners are, which is asked first, and `Stale`.
            pub fn square_apart(&mut self, body: Body, handle: Handle) -> Result<u128, Error> {
                let mut out = Square::default();
                // SAFETY: the words are those that the last call left; `out` is a value of its own.
                told(unsafe { library::$calls::square_apart(&mut self.held, &body, handle, &mut out) })?;
                Ok(out.number())
            }

            /// The nearest boxes to a place, the nearest one first: tells how many they are, and copies the first of their handles.
            pub fn nearest(&mut self, near: Near, out: &mut [Handle]) -> Result<usize, Error> {
                let mut count = 0;
                // SAFETY: the words are those that the last call left; the pointer leads to as many items as the length says.
                let status = unsafe { library::$calls::nearest(&mut self.held, &near, out.as_mut_ptr(), out.len(), &mut count) };
                counted(status, count)
            }

            /// The nearest boxes to a place, the nearest one first, in a list of their own.
            pub fn all_nearest(&mut self, near: Near) -> Result<Vec<Handle>, Error> {
                // SAFETY: the words are those that the last call left; the pointer leads to room for as many items as the length says.
                found(|out, count| unsafe { library::$calls::nearest(&mut self.held, &near, out, SLOTS, count) })
            }

            /// The nearest boxes to a box, of those that are at least so far from it, the nearest one first and then by their slots: tells
            /// how many they are, and copies the first of their handles. `Inverted` if its corners are.
            pub fn nearest_box(&mut self, near: NearBox, out: &mut [Handle]) -> Result<usize, Error> {
                let (asked, mut count) = (near.raw(), 0);
                // SAFETY: the words are those that the last call left; the pointer leads to as many items as the length says.
                let status = unsafe { library::$calls::nearest_box(&mut self.held, &asked, out.as_mut_ptr(), out.len(), &mut count) };
                counted(status, count)
            }

            /// The nearest boxes to a box, the nearest one first, in a list of their own. `Inverted` if its corners are.
            pub fn all_nearest_box(&mut self, near: NearBox) -> Result<Vec<Handle>, Error> {
                let asked = near.raw();
                // SAFETY: the words are those that the last call left; the pointer leads to room for as many items as the length says.
                found(|out, count| unsafe { library::$calls::nearest_box(&mut self.held, &asked, out, SLOTS, count) })
            }
        }
    };
}

questions!(World by of_world);
questions!(Reader by of_reader);

//! What the calls that give a list of their own answer if there is no memory for it.

use pungwelair::{Body, Cast, Error, Handle, How, Near, NearBox, Point, Query, Question, Ray, Stopped, Structure, World};
use std::alloc::{GlobalAlloc, Layout, System};
use std::cell::Cell;

thread_local!(static REFUSES: Cell<bool> = const { Cell::new(false) });

struct Heap;

// SAFETY: the system's heap, which may always answer null.
unsafe impl GlobalAlloc for Heap {
    unsafe fn alloc(&self, layout: Layout) -> *mut u8 {
        if REFUSES.with(Cell::get) {
            std::ptr::null_mut()
        } else {
            System.alloc(layout)
        }
    }
    unsafe fn dealloc(&self, at: *mut u8, layout: Layout) {
        System.dealloc(at, layout)
    }
}

#[global_allocator]
static HEAP: Heap = Heap;

/// What a call answers to whom no memory is given.
fn refused<Answer>(call: impl FnOnce() -> Answer) -> Answer {
    REFUSES.with(|refuses| refuses.set(true));
    let answer = call();
    REFUSES.with(|refuses| refuses.set(false));
    answer
}

#[test]
fn lists_without_memory() {
    let at = Point::default();
    let mut world = World::new(Structure::Tree).unwrap();
    let both = [0, 1].map(|_| world.add(Body::default(), How::default()).unwrap());
    world.update().unwrap();
    let ray = Ray { mask: 1, from: at, direction: at };
    let cast = Cast { mask: 1, body: Body::default(), by: at };
    let near = Near { mask: 1, want: 2, at };
    assert_eq!(refused(|| world.all_pairs()), Err(Error::NoMemory));
    assert_eq!(refused(|| world.all_pairs_now()), Err(Error::NoMemory));
    assert_eq!(refused(|| world.all_events()), Err(Error::NoMemory));
    assert_eq!(refused(|| world.all_changes()), Err(Error::NoMemory));
    assert_eq!(refused(|| world.all_hits(Query::Point(at), 1)), Err(Error::NoMemory));
    assert_eq!(refused(|| world.all_ray_hits(ray)), Err(Error::NoMemory));
    assert_eq!(refused(|| world.all_cast_hits(cast)), Err(Error::NoMemory));
    assert_eq!(refused(|| world.all_nearest(near)), Err(Error::NoMemory));
    let (near_box, questions) = (NearBox { mask: 1, want: 2, body: Body::default(), from: 0 }, [Question::new(Query::Point(at), 1); 2]);
    let none_done = Stopped { done: 0, error: Error::NoMemory };
    assert_eq!(refused(|| world.all_nearest_box(near_box)), Err(Error::NoMemory));
    assert_eq!(refused(|| world.all_hits_each(&questions)), Err(none_done));
    assert_eq!(refused(|| world.all_ray_first_each(&[ray])), Err(none_done));
    assert_eq!(refused(|| world.all_cast_first_each(&[cast])), Err(none_done));

    // The world isn't spent by it, and a slice takes no memory.
    let mut slots = [both[1]; 2];
    assert_eq!((refused(|| world.hits(Query::Point(at), 1, &mut slots)), slots), (Ok(2), both));
    assert_eq!((world.all_pairs().unwrap().len(), world.all_hits(Query::Point(at), 1)), (1, Ok(both.to_vec())));

    // Nor does a reader take memory of this side, from the first to the last.
    let (mut out, mut ends) = ([Handle::NONE; 4], [0; 2]);
    let (found, listed, left, last) = refused(|| {
        let mut reader = world.share().unwrap();
        let mut other = reader.join().unwrap();
        (other.hits_each(&questions, &mut out, &mut ends), other.all_hits_each(&questions), reader.leave(), other.leave())
    });
    assert!(left.is_none() && last.unwrap().info().unwrap().boxes == 2);
    assert_eq!((found, listed, out, ends), (Ok(4), Err(none_done), [both[0], both[1], both[0], both[1]], [2, 4]));
}

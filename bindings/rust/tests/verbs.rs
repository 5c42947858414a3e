//! Each call of the crate once: that its declaration is the library's, and what it makes of a status.

use pungwelair::{
    box_around, box_around_cut, box_around_cut_f64, box_around_f64, fix_above, fix_above_f64, fix_below, fix_below_f64, Body, Cast, Error,
    Event, Frame, Group, Handle, Hit, How, Info, Live, Masks, Near, NearBox, Pair, Point, Query, Question, Ray, Side, Stopped, Structure,
    Told, World,
};
use std::collections::{BTreeSet, HashSet};
use std::hash::Hash;

const STRUCTURES: [Structure; 5] = [Structure::Plain, Structure::Sap, Structure::Tree, Structure::Grid, Structure::Skin];
const ORIGIN: Point = Point { x: 0, y: 0, z: 0 };

fn cube(x: i32) -> Body {
    Body { lo: Point { x, y: 0, z: 0 }, hi: Point { x: x + 10, y: 10, z: 10 } }
}

fn inverted() -> Body {
    Body { lo: Point { x: 1, y: 0, z: 0 }, hi: ORIGIN }
}

#[test]
fn changes_and_frames() {
    for structure in STRUCTURES {
        let mut world = World::new(structure).unwrap();
        let mut handles = [Handle::default(); 3];
        world.add_all(&[cube(0), cube(10), cube(30)], How::default(), &mut handles).unwrap();
        let owned = world.add(cube(31), How { masks: Masks::default(), group: Group::new(7, true) }).unwrap();
        assert_eq!(world.get(owned).unwrap().group, Group::new(7, true));
        assert!(world.get(owned).unwrap().group.is_fixed());

        let frame = world.update().unwrap();
        let (mut pairs, mut events) = ([Pair::default(); 4], [Told::default(); 4]);
        assert_eq!((frame.pairs, world.pairs(0, &mut pairs)), (2, Ok(2)));
        assert_eq!(pairs[1], Pair { a: handles[2], b: owned });
        assert_eq!((frame.events, world.events(1, &mut events), events[0].event()), (2, Ok(1), Event::Begin));
        assert_eq!((frame.changes, world.changes(1, &mut events), events[0].pair.b), (2, Ok(1), owned));

        world.shift(handles[0], cube(100)).unwrap();
        world.shift_all(&[handles[1], owned], &[cube(105), cube(30)]).unwrap();
        world.mask(owned, Masks { is: 1, sees: 0 }).unwrap();
        let frame = world.update().unwrap();
        assert_eq!((frame.pairs, frame.events, world.events(0, &mut events)), (1, 2, Ok(2)));
        assert_eq!((events[0].event(), events[1].event(), events[1].pair.b), (Event::Stay, Event::Over, owned));
        assert_eq!((frame.changes, world.changes(0, &mut events)), (1, Ok(1)));
        assert_eq!((events[0].event(), events[0].pair.b), (Event::Over, owned));

        world.remove(owned).unwrap();
        world.remove_all(&handles).unwrap();
        let info = world.info().unwrap();
        assert_eq!((info.structure(), info.boxes, info.frames, info.is_spent()), (structure, 0, 2, false));
    }
}

#[test]
fn questions() {
    for structure in STRUCTURES {
        let mut world = World::new(structure).unwrap();
        let mut out = [Handle::default(); 4];
        let far = world.add(cube(50), How::default()).unwrap();
        let near = world.add(cube(0), How::default()).unwrap();
        let (from, direction) = (Point { x: -5, y: 5, z: 5 }, Point { x: 2, y: 0, z: 0 });
        assert_eq!(world.hits(Query::Region(cube(5)), 1, &mut out), Ok(1));
        assert_eq!(world.hits(Query::Point(ORIGIN), 1, &mut out), Ok(1));
        assert_eq!(world.hits(Query::Segment { from, to: Point { x: -1, y: 0, z: 0 } }, 1, &mut out), Ok(0));
        assert_eq!(world.hits(Query::Ray { from, direction }, 1, &mut out), Ok(2));
        assert_eq!(out[..2], [far, near]);
        assert_eq!(world.ray_hits(Ray { mask: 1, from, direction }, &mut out), Ok(2));
        assert_eq!(out[..2], [near, far]);
        assert_eq!(world.cast_hits(Cast { mask: 1, body: cube(-20), by: Point { x: 60, y: 0, z: 0 } }, &mut out), Ok(2));
        assert_eq!(out[..2], [near, far]);
        assert_eq!(world.nearest(Near { mask: 1, want: 1, at: Point { x: 40, y: 5, z: 5 } }, &mut out), Ok(1));
        assert_eq!(out[0], far);
        assert_eq!(world.hits(Query::Ray { from, direction }, 2, &mut out), Ok(0));
    }
}

#[test]
fn marks() {
    let mut world = World::new(Structure::Grid).unwrap();
    let kept = world.add(cube(0), How::default()).unwrap();
    assert_eq!(world.back(), Err(Error::NoMark));
    for _ in 0..pungwelair::MOST_MARKS {
        world.mark().unwrap();
    }
    assert_eq!(world.mark(), Err(Error::Full));
    let lost = world.add(cube(5), How::default()).unwrap();
    world.back().unwrap();
    assert_eq!((world.get(kept).unwrap().body, world.get(lost)), (cube(0), Err(Error::Stale)));
}

#[test]
fn forgotten_marks() {
    let mut world = World::new(Structure::Tree).unwrap();
    let mut handles = Vec::new();
    for x in 0..3 {
        world.mark().unwrap();
        handles.push(world.add(cube(x * 50), How::default()).unwrap());
    }
    assert_eq!((world.forget(4), world.forget(2)), (Err(Error::NoMark), Ok(())));
    world.back().unwrap();
    assert_eq!((world.info().unwrap().boxes, world.get(handles[2]), world.back()), (2, Err(Error::Stale), Err(Error::NoMark)));
}

#[test]
fn boxes_by_slots() {
    for structure in STRUCTURES {
        let mut world = World::new(structure).unwrap();
        let handles: Vec<Handle> = (0..3).map(|x| world.add(cube(x * 50), How::default()).unwrap()).collect();
        world.remove(handles[1]).unwrap();
        let seen: Vec<(Handle, Body)> = world.boxes().map(|(handle, live)| (handle, live.body)).collect();
        assert_eq!(seen, [(handles[0], cube(0)), (handles[2], cube(100))]);
        assert_eq!(
            (world.at(1), world.at(pungwelair::SLOTS as u32), world.at(u32::MAX)),
            (Err(Error::Stale), Err(Error::Stale), Err(Error::Stale))
        );
    }
}

#[test]
fn another_owner() {
    let mut world = World::new(Structure::Grid).unwrap();
    let [crate_, wheel] = [0, 5].map(|x| world.add(cube(x), How::default()).unwrap());
    assert_eq!(world.update().unwrap().pairs, 1);
    world.mark().unwrap();
    let group = Group::new(7, false);
    assert_eq!((world.regroup(crate_, group), world.regroup(wheel, group), world.get(wheel).unwrap().group), (Ok(()), Ok(()), group));
    assert_eq!((world.update().unwrap().pairs, world.back(), world.update().unwrap().pairs), (0, Ok(()), 1));
    world.remove(wheel).unwrap();
    assert_eq!(world.regroup(wheel, group), Err(Error::Stale));
}

#[test]
fn refusals_and_empty_slices() {
    let mut world = World::new(Structure::Plain).unwrap();
    let handle = world.add(cube(0), How::default()).unwrap();
    let stale = Handle { slot: 0, generation: 9 };
    assert_eq!(world.add(inverted(), How::default()), Err(Error::Inverted));
    assert_eq!(world.add_all(&[cube(0)], How::default(), &mut []), Err(Stopped { done: 0, error: Error::Argument }));
    assert_eq!(world.shift_all(&[handle, stale], &[cube(0); 2]), Err(Stopped { done: 1, error: Error::Stale }));
    assert_eq!(world.remove(stale), Err(Error::Stale));
    assert_eq!(world.hits(Query::Region(inverted()), 1, &mut []), Err(Error::Argument));
    assert_eq!(world.add_all(&[], How::default(), &mut []), Ok(()));
    assert_eq!(world.shift_all(&[], &[]), Ok(()));
    assert_eq!(world.remove_all(&[]), Ok(()));
    assert_eq!((world.pairs(0, &mut []), world.events(0, &mut []), world.changes(0, &mut [])), (Ok(0), Ok(0), Ok(0)));
    assert_eq!(world.hits(Query::Point(ORIGIN), 1, &mut []), Ok(1));
}

// A batch that stops is an error as others are, so that `?` takes it.
#[test]
fn stopped_batches_convert() {
    fn moves_none(world: &mut World) -> Result<(), Error> {
        world.shift_all(&[Handle::NONE], &[cube(0)])?;
        Ok(())
    }
    fn removes_none(world: &mut World) -> Result<(), Box<dyn std::error::Error>> {
        world.remove_all(&[Handle::NONE])?;
        Ok(())
    }
    let mut world = World::new(Structure::Tree).unwrap();
    assert_eq!(moves_none(&mut world), Err(Error::Stale));
    assert_eq!(removes_none(&mut world).unwrap_err().to_string(), "0 were done, and then no live box has the handle");
    assert_eq!(format!("{world:?}"), "World { .. }");
}

#[test]
fn first_hits() {
    let mut world = World::new(Structure::Grid).unwrap();
    let ray = Ray { mask: 1, from: Point { x: -5, y: 5, z: 5 }, direction: Point { x: 2, y: 0, z: 0 } };
    assert_eq!(world.first_hit(ray), Ok(None));
    world.add(cube(50), How::default()).unwrap();
    let near = world.add(cube(0), How::default()).unwrap();
    assert_eq!(world.first_hit(ray), Ok(Some(near)));
}

// Where a ray and a moved box come first, by which side, and when there is none.
#[test]
fn first_hits_have_places() {
    for structure in STRUCTURES {
        let mut world = World::new(structure).unwrap();
        let far = world.add(cube(50), How::default()).unwrap();
        let near = world.add(cube(0), How::default()).unwrap();
        let ray = Ray { mask: 1, from: Point::new(100, 5, 5), direction: Point::new(-80, 0, 0) };
        let hit = world.ray_first(ray).unwrap().unwrap();
        assert_eq!((hit.handle, hit.place(), hit.num * 2), (far, 0.5, hit.den));
        assert_eq!((hit.face(), hit.normal()), (Some((0, Side::Upper)), Some([1, 0, 0])));
        let cast = Cast { mask: 1, body: Body::from(([0, -20, 0], [1, -10, 1])), by: Point::new(0, 20, 0) };
        let moved = world.cast_first(cast).unwrap().unwrap();
        assert_eq!((moved.handle, moved.place(), moved.face(), moved.normal()), (near, 0.5, Some((1, Side::Lower)), Some([0, -1, 0])));
        let within = world.ray_first(Ray { from: Point::new(5, 5, 5), ..ray }).unwrap().unwrap();
        assert_eq!((within.handle, within.place(), within.face(), within.normal()), (near, 0.0, None, None));
        assert_eq!(
            (world.ray_first(Ray { mask: 2, ..ray }), world.cast_first(Cast { by: Point::new(0, 9, 0), ..cast })),
            (Ok(None), Ok(None))
        );
        assert_eq!(world.cast_first(Cast { body: inverted(), ..cast }), Err(Error::Inverted));
        assert_eq!(hit, world.ray_first(ray).unwrap().unwrap());
    }
}

// Built by cargo the crate knows its version, which is the library's.
#[test]
fn version_of_the_library() {
    let number = pungwelair::version();
    let text = format!("{}.{}.{}", number / 1_000_000, number / 1000 % 1000, number % 1000);
    assert_eq!(option_env!("CARGO_PKG_VERSION").unwrap_or(&text), text);
}

// A box of no group is found by a question whose mask is 0, and by no other.
#[test]
fn boxes_of_no_group() {
    for structure in STRUCTURES {
        let mut world = World::new(structure).unwrap();
        let handle = world.add(cube(0), How::new(Masks::new(0, u32::MAX), Group::default())).unwrap();
        for (mask, found) in [(0, vec![handle]), (u32::MAX, vec![])] {
            let (ray, cast) = (Ray { mask, from: ORIGIN, direction: ORIGIN }, Cast { mask, body: cube(0), by: ORIGIN });
            assert_eq!((world.all_hits(Query::Point(ORIGIN), mask).as_ref(), world.all_ray_hits(ray).as_ref()), (Ok(&found), Ok(&found)));
            assert_eq!(world.all_cast_hits(cast).as_ref(), Ok(&found));
            assert_eq!(world.first_hit(ray), Ok(found.first().copied()));
            assert_eq!(world.all_nearest(Near { mask, want: 1, at: ORIGIN }).as_ref(), Ok(&found));
            assert_eq!(world.all_nearest_box(NearBox { mask, want: 1, body: cube(50), from: 0 }).as_ref(), Ok(&found));
        }
    }
}

// Where a way meets a box that isn't the first, or is in no group that is asked for, and how far off it is.
#[test]
fn meetings() {
    for structure in STRUCTURES {
        let mut world = World::new(structure).unwrap();
        let far = world.add(cube(50), How::default()).unwrap();
        let near = world.add(cube(0), How::default()).unwrap();
        let ray = Ray { mask: 2, from: Point::new(100, 5, 5), direction: Point::new(-80, 0, 0) };
        let cast = Cast { mask: 2, body: cube(-20), by: Point::new(60, 0, 0) };
        let hit = world.ray_meets(ray, near).unwrap().unwrap();
        assert_eq!((hit.handle, hit.place(), hit.num * 8, hit.normal()), (near, 1.125, hit.den * 9, Some([1, 0, 0])));
        let moved = world.cast_meets(cast, far).unwrap().unwrap();
        assert_eq!((moved.handle, moved.num, moved.face()), (far, moved.den, Some((0, Side::Lower))));
        let within = world.ray_meets(Ray { from: Point::new(5, 5, 5), direction: ORIGIN, ..ray }, near).unwrap().unwrap();
        assert_eq!((within.handle, within.place(), within.face()), (near, 0.0, None));
        assert_eq!(world.ray_meets(Ray { direction: Point::new(80, 0, 0), ..ray }, near), Ok(None));
        assert_eq!(world.cast_meets(Cast { by: Point::new(59, 0, 0), ..cast }, far), Ok(None));
        assert_eq!((world.ray_meets(ray, Handle::NONE), world.cast_meets(cast, Handle::NONE)), (Err(Error::Stale), Err(Error::Stale)));
        assert_eq!(world.cast_meets(Cast { body: inverted(), ..cast }, Handle::NONE), Err(Error::Inverted));

        assert_eq!((world.square_to(Point::new(13, 14, 10), near), world.square_to(Point::new(55, 5, 5), far)), (Ok(25), Ok(0)));
        let corner = Point::new(i32::MAX, i32::MAX, 0);
        world.shift(near, Body::new(corner, corner)).unwrap();
        let side = u128::from(u32::MAX);
        assert_eq!(world.square_to(Point::new(i32::MIN, i32::MIN, 0), near), Ok(2 * side * side));
        assert_eq!(world.square_to(ORIGIN, Handle::NONE), Err(Error::Stale));
    }
}

// The pairs of now beside those of the last frame, with room for some, for all, and for far fewer than there are.
#[test]
fn pairs_within_a_frame() {
    for structure in STRUCTURES {
        let mut world = World::new(structure).unwrap();
        let [a, b, c] = [0, 5, 30].map(|x| world.add(cube(x), How::default()).unwrap());
        assert_eq!((world.all_pairs_now(), world.all_pairs()), (Ok(vec![Pair { a, b }]), Ok(vec![])));
        world.update().unwrap();
        world.shift(c, cube(8)).unwrap();
        let mut out = [Pair::default(); 1];
        assert_eq!((world.pairs_now(1, &mut out), out, world.pairs_now(9, &mut [])), (Ok(3), [Pair { a, b: c }], Ok(3)));
        assert_eq!(world.all_pairs_now(), Ok(vec![Pair { a, b }, Pair { a, b: c }, Pair { a: b, b: c }]));
        assert_eq!((world.all_pairs(), world.info().unwrap().frames), (Ok(vec![Pair { a, b }]), 1));
        for _ in 0..17 {
            world.add(cube(0), How::default()).unwrap();
        }
        let now = world.all_pairs_now();
        assert_eq!((world.update().unwrap().pairs, world.all_pairs(), world.all_pairs_now()), (190, now.clone(), now));
    }
}

#[test]
fn boxes_cut_to_the_range() {
    let (least, most) = (i32::MIN, i32::MAX);
    let endless = box_around_cut([f32::NEG_INFINITY, -40_000.0, 1.0], [f32::INFINITY, 0.1, 3.0e38]);
    assert_eq!(endless, Ok(Body::from(([least, least, 65536], [most, 6554, most]))));
    assert_eq!(
        box_around_cut_f64([40_000.0, -1e30, 0.1], [50_000.0, -40_000.0, 0.1]),
        Ok(Body::from(([most, least, 6553], [most, least, 6554])))
    );
    assert_eq!(box_around_cut_f64([50_000.0, 0.0, 0.0], [40_000.0, f64::NAN, 0.0]), Err(Error::Inverted));
    assert_eq!(box_around_cut([0.0, f32::NAN, 1.0], [0.0; 3]), Err(Error::NotANumber));
}

#[test]
fn floats() {
    let around = Body { lo: Point { x: 6553, y: -6554, z: 0 }, hi: Point { x: 6554, y: -6553, z: 0 } };
    assert_eq!(box_around([0.1, -0.1, -0.0], [0.1, -0.1, 0.0]), Ok(around));
    assert_eq!(box_around_f64([0.1, -0.1, -0.0], [0.1, -0.1, 0.0]), Ok(around));
    assert_eq!((fix_below(0.1), fix_above(0.1)), (Ok(6553), Ok(6554)));
    assert_eq!(box_around([f32::NAN; 3], [0.0; 3]), Err(Error::NotANumber));
    assert_eq!(box_around([0.0; 3], [32_768.0; 3]), Err(Error::OutOfRange));
    assert_eq!(box_around([1.0; 3], [0.0; 3]), Err(Error::Inverted));
}

// A double whose float is 30001.
#[test]
fn doubles_are_rounded_as_they_are() {
    assert_eq!((fix_below(30000.99999), fix_above(-30000.99999)), (Ok(1_966_145_536), Ok(-1_966_145_536)));
    assert_eq!((fix_below_f64(30000.99999), fix_above_f64(-30000.99999)), (Ok(1_966_145_535), Ok(-1_966_145_535)));
    assert_eq!((fix_below_f64(0.1), fix_above_f64(0.1), fix_below_f64(-0.0)), (Ok(6553), Ok(6554), Ok(0)));
    assert_eq!((fix_below_f64(32767.99999), fix_above_f64(32767.99999)), (Ok(i32::MAX), Err(Error::OutOfRange)));
    assert_eq!((fix_below_f64(f64::NAN), fix_above_f64(f64::INFINITY)), (Err(Error::NotANumber), Err(Error::OutOfRange)));
}

// As constants, from plain numbers and back, and what is the least that each says.
#[test]
fn values_are_made() {
    const LOW: Point = Point::new(-1, 2, 3);
    const AROUND: Body = Body::new(LOW, Point::new(4, 5, 6));
    const NONE: Body = Body::new(Point::new(4, 5, 6), LOW);
    const FIXED: How = How::new(Masks::new(2, 5), Group::new(7, true));
    const LAST: Handle = Handle::new(8191, 3);
    assert_eq!(LOW, Point { x: -1, y: 2, z: 3 });
    assert_eq!((Point::from([-1, 2, 3]), <[i32; 3]>::from(LOW)), (LOW, [-1, 2, 3]));
    assert_eq!((Body::from(([-1, 2, 3], [4, 5, 6])), Body::from([LOW, Point::new(4, 5, 6)])), (AROUND, AROUND));
    assert_eq!((NONE.lo, NONE.hi), (AROUND.hi, AROUND.lo));
    assert_eq!(FIXED, How { masks: Masks { is: 2, sees: 5 }, group: Group::new(7, true) });
    assert_eq!(LAST, Handle { slot: 8191, generation: 3 });
    assert_eq!(How::default(), How::new(Masks::new(1, u32::MAX), Group::new(0, false)));
    let mut world = World::new(Structure::Tree).unwrap();
    assert_eq!(world.add(NONE, FIXED), Err(Error::Inverted));
    assert_eq!(world.add(([0; 3], [1; 3]).into(), FIXED), Ok(Handle::new(0, 0)));
}

// Keys of sets, which hold one of two that are equal; those with an order come by their first number that differs.
#[test]
fn values_are_keys() {
    fn hashed<Key: Hash + Eq>(keys: impl IntoIterator<Item = Key>) -> usize {
        keys.into_iter().collect::<HashSet<Key>>().len()
    }
    fn sorted<Key: Ord + Hash + Copy + std::fmt::Debug>(rising: [Key; 3]) {
        let [a, b, c] = rising;
        assert_eq!(BTreeSet::from([c, a, b, a]).into_iter().collect::<Vec<_>>(), rising);
        assert_eq!(hashed([c, a, b, a]), 3);
    }
    sorted([Point::new(0, 9, 9), Point::new(1, 0, 5), Point::new(1, 1, 0)]);
    sorted([Body::new(ORIGIN, ORIGIN), cube(0), cube(1)]);
    sorted([Masks::new(1, 9), Masks::new(2, 1), Masks::new(2, 3)]);
    sorted([Group::new(0, true), Group::new(1, false), Group::new(1, true)]);
    sorted([Masks::new(1, 1), Masks::new(1, 2), Masks::new(2, 0)].map(|masks| How::new(masks, Group::default())));
    sorted([Handle::new(0, 9), Handle::new(1, 0), Handle::NONE]);
    sorted([0, 1, 2].map(|slot| Pair { a: Handle::new(slot, 0), b: Handle::new(5, 0) }));
    sorted([Event::Begin, Event::Stay, Event::Over]);
    let live = Live { body: cube(0), ..Live::default() };
    assert_eq!(hashed([live, Live::default(), live]), 2);
    assert_eq!(hashed([Frame { pairs: 1, ..Frame::default() }, Frame::default()]), 2);
    assert_eq!(hashed([Info::default(), Info::default()]), 1);
    assert_eq!(hashed(STRUCTURES.into_iter().chain(STRUCTURES)), 5);
    assert_eq!(hashed([Query::Point(ORIGIN), Query::Segment { from: ORIGIN, to: ORIGIN }]), 2);
    let (ray, cast) = (Ray { mask: 1, from: ORIGIN, direction: ORIGIN }, Cast { mask: 1, body: cube(0), by: ORIGIN });
    assert_eq!((hashed([ray, ray]), hashed([cast, cast]), hashed([Near { mask: 1, want: 2, at: ORIGIN }])), (1, 1, 1));
    let near = NearBox { mask: 1, want: 2, body: cube(0), from: 0 };
    assert_eq!((hashed([near, near, NearBox { from: 1 << 64, ..near }]), hashed([Hit::NONE, Hit::NONE])), (2, 1));
    assert_eq!(hashed([Question::new(Query::Point(ORIGIN), 1), (Query::Point(ORIGIN), 2).into(), (Query::Point(ORIGIN), 1).into()]), 2);
}

// The nearest to a box in parts: each goes on from the square of the last one, which it tells again.
#[test]
fn nearest_to_a_box_in_parts() {
    for structure in STRUCTURES {
        let mut world = World::new(structure).unwrap();
        let handles: Vec<Handle> = (0..9).map(|k| world.add(cube(20 * k), How::default()).unwrap()).collect();
        let near = NearBox { mask: 1, want: 3, body: cube(-5), from: 0 };
        let (mut parts, mut from): (Vec<Handle>, u128) = (Vec::new(), 0);
        loop {
            let part = world.all_nearest_box(NearBox { from, ..near }).unwrap();
            let told_again = usize::from(parts.last() == part.first());
            parts.extend(&part[told_again..]);
            if part.len() < 3 {
                break;
            }
            from = world.square_apart(near.body, part[2]).unwrap();
        }
        assert_eq!((parts, from), (handles.clone(), 155 * 155));

        // At the ends of the range, whose square is above 64 bits.
        let corners = [i32::MIN, i32::MAX].map(|end| Body::from(([end; 3], [end; 3])));
        let side = u128::from(u32::MAX);
        world.shift(handles[8], corners[1]).unwrap();
        assert_eq!(world.square_apart(corners[0], handles[8]), Ok(3 * side * side));
        let ends = NearBox { mask: 1, want: 9, body: corners[0], from: 3 * side * side };
        assert_eq!(world.all_nearest_box(ends), Ok(vec![handles[8]]));
        assert_eq!(world.all_nearest_box(NearBox { from: ends.from + 1, ..ends }), Ok(vec![]));
    }
}

// What each call with a slice gives, in a list with no more than that.
#[test]
fn lists_of_their_own() {
    for structure in STRUCTURES {
        let mut world = World::new(structure).unwrap();
        assert_eq!((world.all_pairs(), world.all_events(), world.all_changes()), (Ok(vec![]), Ok(vec![]), Ok(vec![])));
        assert_eq!(world.all_hits(Query::Point(ORIGIN), 1), Ok(vec![]));

        // Each box meets the two before it.
        let bodies: Vec<Body> = (0..100).map(|k| cube(5 * k)).collect();
        let mut handles = [Handle::NONE; 100];
        world.add_all(&bodies, How::default(), &mut handles).unwrap();
        assert_eq!(world.update().unwrap(), Frame { pairs: 197, events: 197, changes: 197 });
        let (mut pairs, mut told) = ([Pair::default(); 300], [Told::default(); 300]);
        assert_eq!((world.pairs(0, &mut pairs), world.all_pairs()), (Ok(197), Ok(pairs[..197].to_vec())));
        assert_eq!((world.events(0, &mut told), world.all_events()), (Ok(197), Ok(told[..197].to_vec())));

        // The changes come in the order of what is told.
        world.mark().unwrap();
        world.remove_all(&handles[..97]).unwrap();
        world.shift(handles[99], cube(485)).unwrap();
        world.add(cube(496), How::default()).unwrap();
        let frame = world.update().unwrap();
        assert_eq!((frame.pairs, world.all_pairs().unwrap().len()), (4, 4));
        assert_eq!((frame.events, world.all_events().unwrap().len()), (198, 198));
        let changes = world.all_changes().unwrap();
        assert!(world.all_events().unwrap().capacity() < 200 && changes.capacity() < 197);
        assert_eq!((world.changes(0, &mut told), &changes[..]), (Ok(frame.changes), &told[..frame.changes]));
        assert!(changes.windows(2).all(|two| two[0] < two[1]) && changes[0].event() == Event::Begin);

        // After a way back the last frame has more pairs than the last update counted; what that told stays.
        world.back().unwrap();
        assert_eq!((world.all_pairs(), world.all_changes()), (Ok(pairs[..197].to_vec()), Ok(changes)));

        let (ray, by) = (Ray { mask: 1, from: Point::new(600, 5, 5), direction: Point::new(-1, 0, 0) }, Point::new(1000, 0, 0));
        let backwards: Vec<Handle> = handles.iter().rev().copied().collect();
        assert_eq!(world.all_hits(Query::Region(cube(12)), 1), Ok(handles[1..5].to_vec()));
        assert_eq!((world.all_ray_hits(ray), world.all_ray_hits(Ray { mask: 2, ..ray })), (Ok(backwards), Ok(vec![])));
        assert!(world.all_ray_hits(ray).unwrap().capacity() < 200);
        assert_eq!(world.all_cast_hits(Cast { mask: 1, body: cube(-20), by }), Ok(handles.to_vec()));
        assert_eq!(world.all_nearest(Near { mask: 1, want: 2, at: Point::new(-9, 0, 0) }), Ok(handles[..2].to_vec()));
        assert_eq!(world.all_hits(Query::Region(inverted()), 1), Err(Error::Argument));
        assert_eq!(world.all_cast_hits(Cast { mask: 1, body: inverted(), by }), Err(Error::Inverted));
    }
}

#[test]
fn lists_of_a_full_world() {
    let mut world = World::new(Structure::Grid).unwrap();
    let bodies: Vec<Body> = (0..pungwelair::SLOTS as i32).map(|k| cube(20 * k)).collect();
    let mut handles = vec![Handle::NONE; pungwelair::SLOTS];
    world.add_all(&bodies, How::default(), &mut handles).unwrap();
    let all = Query::Region(Body::new(Point::from([i32::MIN; 3]), Point::from([i32::MAX; 3])));
    assert_eq!((world.all_hits(all, 1).unwrap(), world.all_pairs()), (handles, Ok(vec![])));
}

#[test]
fn worlds_of_several_threads() {
    let made: Vec<World> = STRUCTURES.map(|structure| World::new(structure).unwrap()).into();
    let threads: Vec<_> = made
        .into_iter()
        .map(|mut world| {
            std::thread::spawn(move || {
                for k in 0..500 {
                    world.add(cube(k * 5), How::default()).unwrap();
                }
                world.update().unwrap().pairs
            })
        })
        .collect();
    // Each box meets the two before it: the second one's face.
    for thread in threads {
        assert_eq!(thread.join().unwrap(), 499 + 498);
    }
}

//! Each question to a world and to its readers beside a model that tests every box, with readers that ask at once on four threads.

use pungwelair::{
    Body, Cast, Error, Group, Handle, Hit, How, Live, Masks, Near, NearBox, Pair, Point, Query, Question, Ray, Reader, Room, Side, Stopped,
    Structure, World, SLOTS,
};
use std::cmp::Ordering;
use std::sync::Barrier;

const STRUCTURES: [Structure; 5] = [Structure::Plain, Structure::Sap, Structure::Tree, Structure::Grid, Structure::Skin];
const THREADS: usize = 4;
const INVERTED: Body = Body::new(Point::new(0, 1, 0), Point::new(9, 0, 9));

/// Numbers that only look random.
struct Dice(u64);

impl Dice {
    fn below(&mut self, most: u64) -> u64 {
        self.0 ^= self.0 << 13;
        self.0 ^= self.0 >> 7;
        self.0 ^= self.0 << 17;
        self.0 % most
    }

    fn within(&mut self, reach: i32) -> i32 {
        self.below(2 * reach as u64 + 1) as i32 - reach
    }

    fn point(&mut self, reach: i32) -> Point {
        Point::new(self.within(reach), self.within(reach), self.within(reach))
    }

    /// Mostly near the middle, and sometimes from end to end of the range along an axis.
    fn body(&mut self) -> Body {
        let (lo, wide) = (self.point(1000), [0; 3].map(|_| self.below(120) as i32));
        let body = Body::new(lo, Point::new(lo.x + wide[0], lo.y + wide[1], lo.z + wide[2]));
        match self.below(40) {
            0 => Body::new(Point { x: i32::MIN, ..body.lo }, Point { x: i32::MAX, ..body.hi }),
            1 => Body::new(Point { y: i32::MAX, ..body.lo }, Point { y: i32::MAX, ..body.hi }),
            _ => body,
        }
    }

    fn mask(&mut self) -> u32 {
        [0, 1, 2, 3, 7, u32::MAX][self.below(6) as usize]
    }

    fn query(&mut self) -> Query {
        match self.below(4) {
            0 => Query::Region(self.body()),
            1 => Query::Point(self.point(1000)),
            2 => Query::Ray { from: self.point(1200), direction: self.point(3) },
            _ => Query::Segment { from: self.point(1200), to: self.point(1200) },
        }
    }

    fn ray(&mut self) -> Ray {
        Ray { mask: self.mask(), from: self.point(1200), direction: self.point(5) }
    }

    fn cast(&mut self) -> Cast {
        Cast { mask: self.mask(), body: self.body(), by: self.point(1500) }
    }
}

/// A live box, as the model has it.
#[derive(Clone, Copy)]
struct Kept {
    handle: Handle,
    body: Body,
    is: u32,
}

/// A place of a way as a fraction, of which the lower number is above 0.
#[derive(Clone, Copy, Debug)]
struct Place(i128, i128);

impl Place {
    fn order(self, other: Place) -> Ordering {
        (self.0 * other.1).cmp(&(other.0 * self.1))
    }
}

fn axes(at: Point) -> [i128; 3] {
    <[i32; 3]>::from(at).map(i128::from)
}

/// Where a way from `from` comes into a box, and by which side, if it does so before its end, which a ray doesn't have.
fn entry(from: [i128; 3], way: [i128; 3], lo: [i128; 3], hi: [i128; 3], ends: bool) -> Option<(Place, Option<(usize, Side)>)> {
    let (mut enters, mut face) = (Place(0, 1), None);
    let mut leaves = if ends { Place(1, 1) } else { Place(i128::from(i64::MAX), 1) };
    for axis in 0..3 {
        let (near, far, side) = match way[axis].cmp(&0) {
            Ordering::Equal if lo[axis] <= from[axis] && from[axis] <= hi[axis] => continue,
            Ordering::Equal => return None,
            Ordering::Greater => (lo[axis] - from[axis], hi[axis] - from[axis], Side::Lower),
            Ordering::Less => (from[axis] - hi[axis], from[axis] - lo[axis], Side::Upper),
        };
        let (near, far) = (Place(near, way[axis].abs()), Place(far, way[axis].abs()));
        match near.order(enters) {
            Ordering::Greater => (enters, face) = (near, Some((axis, side))),
            Ordering::Equal if face.is_none() => face = Some((axis, side)),
            _ => (),
        }
        if far.order(leaves) == Ordering::Less {
            leaves = far;
        }
    }
    (enters.order(leaves) != Ordering::Greater).then_some((enters, face))
}

fn ray_entry(ray: Ray, body: Body) -> Option<(Place, Option<(usize, Side)>)> {
    entry(axes(ray.from), axes(ray.direction), axes(body.lo), axes(body.hi), false)
}

/// A moved box meets another one as its lower corner, moved, meets that one grown by its size.
fn cast_entry(cast: Cast, body: Body) -> Option<(Place, Option<(usize, Side)>)> {
    let (lo, hi, mut grown) = (axes(cast.body.lo), axes(cast.body.hi), axes(body.lo));
    for axis in 0..3 {
        grown[axis] -= hi[axis] - lo[axis];
    }
    entry(lo, axes(cast.by), grown, axes(body.hi), true)
}

fn is_met(query: Query, body: Body) -> bool {
    let (lo, hi) = (axes(body.lo), axes(body.hi));
    match query {
        Query::Region(other) => square(other, body) == 0,
        Query::Point(at) => square(Body::new(at, at), body) == 0,
        Query::Ray { from, direction } => entry(axes(from), axes(direction), lo, hi, false).is_some(),
        Query::Segment { from, to } => {
            let (from, to) = (axes(from), axes(to));
            entry(from, [to[0] - from[0], to[1] - from[1], to[2] - from[2]], lo, hi, true).is_some()
        }
    }
}

/// The square of the distance of two boxes.
fn square(a: Body, b: Body) -> u128 {
    let (lo, hi, other_lo, other_hi) = (axes(a.lo), axes(a.hi), axes(b.lo), axes(b.hi));
    (0..3).map(|axis| (other_lo[axis] - hi[axis]).max(lo[axis] - other_hi[axis]).max(0).pow(2) as u128).sum()
}

/// A mask of 0 looks at no group.
fn in_groups(model: &[Kept], mask: u32) -> impl Iterator<Item = &Kept> {
    model.iter().filter(move |kept| mask == 0 || kept.is & mask != 0)
}

fn hits_of(model: &[Kept], query: Query, mask: u32) -> Vec<Handle> {
    in_groups(model, mask).filter(|kept| is_met(query, kept.body)).map(|kept| kept.handle).collect()
}

type Met = (Handle, Place, Option<(usize, Side)>);

/// What a way meets, in order.
fn met(model: &[Kept], mask: u32, entry: impl Fn(Body) -> Option<(Place, Option<(usize, Side)>)>) -> Vec<Met> {
    let mut all: Vec<Met> =
        in_groups(model, mask).filter_map(|kept| entry(kept.body).map(|(place, face)| (kept.handle, place, face))).collect();
    all.sort_by(|a, b| a.1.order(b.1).then(a.0.cmp(&b.0)));
    all
}

fn nearest_of(model: &[Kept], body: Body, mask: u32, want: u32, from: u128) -> Vec<Handle> {
    let mut all: Vec<(u128, Handle)> =
        in_groups(model, mask).map(|kept| (square(body, kept.body), kept.handle)).filter(|(square, _)| *square >= from).collect();
    all.sort();
    all.iter().take(want as usize).map(|(_, handle)| *handle).collect()
}

/// A hit is that one of the model's, and there is none exactly if the model has none.
fn same(hit: Option<Hit>, met: Option<&Met>) {
    let told = hit.map(|hit| (hit.handle, hit.face(), Place(hit.num.into(), hit.den.into())));
    match (told, met) {
        (None, None) => (),
        (Some((handle, face, at)), Some((wanted, place, side))) => {
            assert!((handle, face, at.order(*place)) == (*wanted, *side, Ordering::Equal) && at.0 >= 0 && at.1 > 0, "{hit:?} for {met:?}");
        }
        _ => panic!("{hit:?} for {met:?}"),
    }
}

// The same for a world and for a reader.
macro_rules! compared {
    ($name:ident, $asked:ty) => {
        /// Asks each question so many times, and compares the answers with the model's.
        fn $name(asked: &mut $asked, model: &[Kept], seed: u64, rounds: usize) {
            let mut dice = Dice(seed);
            for _ in 0..rounds {
                let (query, mask, some) = (dice.query(), dice.mask(), model[dice.below(model.len() as u64) as usize]);
                let expected = hits_of(model, query, mask);
                let mut out = [Handle::NONE; 5];
                assert_eq!(asked.all_hits(query, mask).as_ref(), Ok(&expected));
                assert_eq!(asked.hits(query, mask, &mut out), Ok(expected.len()));
                assert!(
                    expected.iter().zip(&out).all(|(a, b)| a == b) && out.iter().skip(expected.len()).all(|rest| *rest == Handle::NONE)
                );

                let (ray, cast) = (dice.ray(), dice.cast());
                let (on_ray, on_cast) =
                    (met(model, ray.mask, |body| ray_entry(ray, body)), met(model, cast.mask, |body| cast_entry(cast, body)));
                let ray_handles: Vec<Handle> = on_ray.iter().map(|met| met.0).collect();
                let cast_handles: Vec<Handle> = on_cast.iter().map(|met| met.0).collect();
                assert_eq!(asked.all_ray_hits(ray).as_ref(), Ok(&ray_handles));
                assert_eq!(asked.all_cast_hits(cast).as_ref(), Ok(&cast_handles));
                assert_eq!(asked.ray_hits(ray, &mut []), Ok(ray_handles.len()));
                assert_eq!(asked.cast_hits(cast, &mut out), Ok(cast_handles.len()));
                assert!(cast_handles.iter().zip(&out).all(|(a, b)| a == b));
                same(asked.ray_first(ray).unwrap(), on_ray.first());
                same(asked.cast_first(cast).unwrap(), on_cast.first());
                assert_eq!(asked.first_hit(ray), Ok(ray_handles.first().copied()));
                for number in 0..on_ray.len().min(3) {
                    same(asked.ray_meets(ray, on_ray[number].0).unwrap(), on_ray.get(number));
                }
                for number in 0..on_cast.len().min(3) {
                    same(asked.cast_meets(cast, on_cast[number].0).unwrap(), on_cast.get(number));
                }
                let alone = |entry: Option<(Place, Option<(usize, Side)>)>| entry.map(|(place, face)| (some.handle, place, face));
                same(asked.ray_meets(ray, some.handle).unwrap(), alone(ray_entry(ray, some.body)).as_ref());
                same(asked.cast_meets(cast, some.handle).unwrap(), alone(cast_entry(cast, some.body)).as_ref());

                let (at, body, want) = (dice.point(1500), dice.body(), dice.below(20) as u32);
                let from = match dice.below(3) {
                    0 => 0,
                    1 => square(body, some.body),
                    _ => u128::from(dice.below(4_000_000)),
                };
                let nearest = nearest_of(model, body, mask, want, from);
                assert_eq!(asked.all_nearest(Near { mask, want, at }), Ok(nearest_of(model, Body::new(at, at), mask, want, 0)));
                assert_eq!(asked.all_nearest_box(NearBox { mask, want, body, from }).as_ref(), Ok(&nearest));
                out = [Handle::NONE; 5];
                assert_eq!(asked.nearest(Near { mask, want, at }, &mut []), Ok(nearest_of(model, Body::new(at, at), mask, want, 0).len()));
                assert_eq!(asked.nearest_box(NearBox { mask, want, body, from }, &mut out), Ok(nearest.len()));
                assert!(nearest.iter().zip(&out).all(|(a, b)| a == b) && out.iter().skip(nearest.len()).all(|rest| *rest == Handle::NONE));
                assert_eq!(asked.square_to(at, some.handle), Ok(square(Body::new(at, at), some.body)));
                assert_eq!(asked.square_apart(body, some.handle), Ok(square(body, some.body)));

                // Many at once, with more ways than are asked by one call, and with room for half of what is found.
                let asks: Vec<(Query, u32)> = (0..20).map(|_| (dice.query(), dice.mask())).collect();
                let questions: Vec<Question> = asks.iter().map(|ask| Question::from(*ask)).collect();
                let each: Vec<Vec<Handle>> = asks.iter().map(|(query, mask)| hits_of(model, *query, *mask)).collect();
                let answers = asked.all_hits_each(&questions).unwrap();
                assert!(answers.len() == 20 && answers.iter().eq(each.iter().map(Vec::as_slice)));
                assert_eq!((answers.get(7), answers.get(20)), (Some(&each[7][..]), None));
                let all = each.concat();
                let (mut half, mut ends) = (vec![Handle::NONE; all.len() / 2], [usize::MAX; 21]);
                assert_eq!((asked.hits_each(&questions, &mut half, &mut ends), ends[20]), (Ok(all.len()), usize::MAX));
                assert_eq!(half[..], all[..half.len()]);
                assert!((0..20).all(|number| ends[number] == each[..=number].iter().map(Vec::len).sum::<usize>()));

                let rays: Vec<Ray> = (0..70).map(|_| dice.ray()).collect();
                let casts: Vec<Cast> = (0..70).map(|_| dice.cast()).collect();
                let (mut first, mut moved) = ([Hit::NONE; 71], [Hit::NONE; 71]);
                assert_eq!((asked.ray_first_each(&rays, &mut first), asked.cast_first_each(&casts, &mut moved)), (Ok(()), Ok(())));
                let by_rays = asked.all_ray_first_each(&rays).unwrap();
                let by_casts = asked.all_cast_first_each(&casts).unwrap();
                assert_eq!((by_rays.len(), by_casts.len()), (70, 70));
                for (number, (ray, cast)) in rays.into_iter().zip(casts).enumerate() {
                    same(by_rays[number], met(model, ray.mask, |body| ray_entry(ray, body)).first());
                    same(by_casts[number], met(model, cast.mask, |body| cast_entry(cast, body)).first());
                    assert_eq!((first[number].met(), moved[number].met()), (by_rays[number], by_casts[number]));
                }
            }
        }
    };
}

compared!(world_compared, World);
compared!(reader_compared, Reader);

// The same for a world and for a reader.
macro_rules! refused {
    ($name:ident, $asked:ty) => {
        /// What each question refuses, and what it leaves. The one box is at the origin.
        fn $name(asked: &mut $asked, handle: Handle) {
            let (at, far) = (Body::default(), Point::new(90, 0, 0));
            let (ray, cast) =
                (Ray { mask: 1, from: far, direction: Point::new(-1, 0, 0) }, Cast { mask: 1, body: at, by: Point::default() });
            let (away, wrong) = (Ray { direction: far, ..ray }, Cast { body: INVERTED, ..cast });
            let (none, one) = (Point::new(7, 7, 7), [handle]);
            let near = NearBox { mask: 1, want: 4, body: INVERTED, from: 0 };
            let mut out = [Handle::NONE; 3];
            assert_eq!(asked.hits(Query::Region(INVERTED), 1, &mut out), Err(Error::Argument));
            assert_eq!(asked.cast_hits(wrong, &mut out), Err(Error::Inverted));
            assert_eq!((asked.cast_first(wrong), asked.cast_meets(wrong, Handle::NONE)), (Err(Error::Inverted), Err(Error::Inverted)));
            assert_eq!((asked.ray_meets(ray, Handle::NONE), asked.cast_meets(cast, Handle::NONE)), (Err(Error::Stale), Err(Error::Stale)));
            assert_eq!((asked.nearest_box(near, &mut out), asked.all_nearest_box(near)), (Err(Error::Inverted), Err(Error::Inverted)));
            assert_eq!(asked.nearest_box(NearBox { body: at, from: 1, ..near }, &mut out), Ok(0));
            assert_eq!(asked.nearest_box(NearBox { body: at, from: u128::MAX, ..near }, &mut out), Ok(0));
            assert_eq!(asked.square_to(far, Handle::NONE), Err(Error::Stale));
            assert_eq!(
                (asked.square_apart(INVERTED, Handle::NONE), asked.square_apart(at, Handle::NONE)),
                (Err(Error::Inverted), Err(Error::Stale))
            );
            assert_eq!(asked.square_apart(Body::new(far, far), handle), Ok(8100));
            assert_eq!(out, [Handle::NONE; 3]);
            assert_eq!(
                (asked.get(Handle::NONE), asked.at(1), asked.at(SLOTS as u32)),
                (Err(Error::Stale), Err(Error::Stale), Err(Error::Stale))
            );

            // Up to the first that is refused.
            let asks = [Query::Point(Point::default()), Query::Point(none), Query::Region(INVERTED), Query::Region(at)];
            let questions = asks.map(|query| Question::new(query, 1));
            let mut ends = [9; 5];
            let stopped = Stopped { done: 2, error: Error::Argument };
            assert_eq!((asked.hits_each(&questions, &mut out, &mut ends), ends), (Err(stopped), [1, 1, 9, 9, 9]));
            assert_eq!((out, asked.all_hits_each(&questions)), ([handle, Handle::NONE, Handle::NONE], Err(stopped)));
            let nothing_asked = Stopped { done: 0, error: Error::Argument };
            assert_eq!((asked.hits_each(&questions, &mut out, &mut ends[..3]), ends[0]), (Err(nothing_asked), 1));
            assert_eq!((asked.hits_each(&questions[..2], &mut [], &mut ends), ends[1]), (Ok(1), 1));
            assert_eq!((asked.hits_each(&[], &mut [], &mut []), asked.all_hits_each(&[]).unwrap().len()), (Ok(0), 0));

            let kept = asked.ray_first(ray).unwrap().unwrap();
            let mut hits = [kept; 4];
            assert_eq!((asked.ray_first_each(&[ray, away], &mut hits), hits), (Ok(()), [kept, Hit::NONE, kept, kept]));
            assert_eq!((asked.ray_first_each(&[away; 5], &mut hits), hits[0]), (Err(nothing_asked), kept));
            assert_eq!((asked.ray_first_each(&[], &mut []), asked.all_ray_first_each(&[])), (Ok(()), Ok(vec![])));
            let standing = asked.cast_first(cast).unwrap().unwrap();
            let stopped = Stopped { done: 2, error: Error::Inverted };
            let casts = [cast, Cast { mask: 2, ..cast }, wrong, cast];
            assert_eq!((asked.cast_first_each(&casts, &mut hits), hits), (Err(stopped), [standing, Hit::NONE, kept, kept]));
            assert_eq!((asked.cast_first_each(&casts[..2], &mut hits[..1]), hits[0]), (Err(nothing_asked), standing));
            let mut long = [cast; 100];
            long[70] = wrong;
            assert_eq!(asked.all_cast_first_each(&long), Err(Stopped { done: 70, ..stopped }));
            assert_eq!(asked.all_cast_first_each(&long[..70]), Ok(vec![Some(standing); 70]));
            assert_eq!(asked.all_hits(Query::Point(Point::default()), 1), Ok(one.to_vec()));
        }
    };
}

refused!(world_refused, World);
refused!(reader_refused, Reader);

#[test]
fn refusals() {
    for structure in STRUCTURES {
        let mut world = World::new(structure).unwrap();
        let handle = world.add(Body::default(), How::default()).unwrap();
        world_refused(&mut world, handle);
        let mut reader = world.share().unwrap();
        reader_refused(&mut reader, handle);
        reader_refused(&mut reader.join().unwrap(), handle);
    }
}

/// A world of so many boxes, some of which are in no group, and its model.
fn made(structure: Structure, dice: &mut Dice, count: usize) -> (World, Vec<Kept>) {
    let mut world = World::new(structure).unwrap();
    let model = (0..count)
        .map(|_| {
            let (body, is) = (dice.body(), [0, 1, 2, 4, 5][dice.below(5) as usize]);
            Kept { handle: world.add(body, How::new(Masks::new(is, 7), Group::default())).unwrap(), body, is }
        })
        .collect();
    (world, model)
}

/// All that is told without a question, of a world or by a reader.
macro_rules! read {
    ($told:ident) => {{
        let boxes: Vec<(Handle, Live)> = $told.boxes().collect();
        for (handle, live) in &boxes {
            assert_eq!(($told.get(*handle), $told.at(handle.slot)), (Ok(*live), Ok((*handle, *live))));
        }
        ($told.info().unwrap(), boxes, $told.all_pairs().unwrap(), $told.all_events().unwrap(), $told.all_changes().unwrap())
    }};
}

#[test]
fn four_threads_ask_at_once() {
    for structure in STRUCTURES {
        let mut dice = Dice(0x9e37_79b9_7f4a_7c15);
        let (mut world, mut model) = made(structure, &mut dice, 150);
        let mut rooms: Vec<Room> = Vec::new();
        for tick in 1..=3_u64 {
            for _ in 0..40 {
                let moved = dice.below(model.len() as u64) as usize;
                model[moved].body = dice.body();
                world.shift(model[moved].handle, model[moved].body).unwrap();
            }
            world.update().unwrap();
            world_compared(&mut world, &model, tick, 2);
            let told = read!(world);

            // The first tick takes new room, and the later ones what is kept from it.
            let mut first = match rooms.pop() {
                Some(room) => world.share_in(room).unwrap(),
                None => world.share().unwrap(),
            };
            let mut readers: Vec<Reader> = (1..THREADS)
                .map(|_| match rooms.pop() {
                    Some(room) => first.join_in(room).unwrap(),
                    None => first.join().unwrap(),
                })
                .collect();
            readers.push(first);

            let (all_asked, model) = (Barrier::new(THREADS), &model[..]);
            let left: Vec<(Option<World>, Room)> = std::thread::scope(|scope| {
                let askers: Vec<_> = readers
                    .into_iter()
                    .zip(1..)
                    .map(|(mut reader, number)| {
                        let (all_asked, told) = (&all_asked, &told);
                        scope.spawn(move || {
                            reader_compared(&mut reader, model, tick << 32 | number, 6);
                            assert_eq!(read!(reader), *told);
                            all_asked.wait();
                            reader.leave_room()
                        })
                    })
                    .collect();
                askers.into_iter().map(|asker| asker.join().unwrap()).collect()
            });
            let mut back = Vec::new();
            for (world, room) in left {
                back.extend(world);
                rooms.push(room);
            }
            assert_eq!((back.len(), rooms.len()), (1, THREADS));
            world = back.pop().unwrap();
            assert_eq!(read!(world), told);
            assert!(told.0.frames == tick && told.1.len() == model.len());
        }
    }
}

#[test]
fn the_last_one_has_the_world() {
    let mut world = World::new(Structure::Tree).unwrap();
    let [a, b] = [0, 1].map(|_| world.add(Body::default(), How::default()).unwrap());
    world.mark().unwrap();
    world.remove(b).unwrap();
    world.update().unwrap();
    let alone = world.share().unwrap().leave();
    let mut first = alone.unwrap().share().unwrap();
    let mut second = first.join().unwrap();
    // One that joined may be joined, too.
    let third = second.join().unwrap();
    assert!(first.leave().is_none());
    drop(third);
    assert_eq!(second.all_hits(Query::Point(Point::default()), 1), Ok(vec![a]));
    assert_eq!(format!("{second:?} {:?}", Room::new().unwrap()), "Reader { .. } Room { .. }");
    let mut world = second.leave().unwrap();
    // It is as it was, with its mark, and may change.
    world.back().unwrap();
    assert_eq!((world.update().unwrap().pairs, world.all_pairs()), (1, Ok(vec![Pair { a, b }])));
}

// A thread that ends by a panic leaves, as does one that drops its reader: the others ask on, and the last one has the world.
#[test]
fn a_thread_that_panics_leaves() {
    let mut world = World::new(Structure::Skin).unwrap();
    let handle = world.add(Body::default(), How::default()).unwrap();
    let mut first = world.share().unwrap();
    let other = first.join().unwrap();
    let ended = std::thread::spawn(move || {
        let _asker = other;
        std::panic::resume_unwind(Box::new(()));
    });
    assert!(ended.join().is_err());
    assert_eq!(first.all_hits(Query::Point(Point::default()), 1), Ok(vec![handle]));
    assert!(first.leave().is_some());
}

// A reader goes from thread to thread between its questions, and the world is freed where the last one is dropped.
#[test]
fn readers_go_to_other_threads() {
    let (mut world, model) = made(Structure::Grid, &mut Dice(77), 60);
    world.update().unwrap();
    let mut reader = world.share().unwrap();
    for seed in 1..=3 {
        let model = model.clone();
        reader = std::thread::spawn(move || {
            reader_compared(&mut reader, &model, seed, 1);
            reader
        })
        .join()
        .unwrap();
    }
    std::thread::spawn(move || drop(reader)).join().unwrap();
}

// The answers to many questions may be more than there are slots.
#[test]
fn long_answers() {
    let mut world = World::new(Structure::Tree).unwrap();
    let mut handles = [Handle::NONE; 100];
    world.add_all(&[Body::default(); 100], How::new(Masks::new(1, 0), Group::default()), &mut handles).unwrap();
    let questions = [Question::new(Query::Point(Point::default()), 1); 300];
    let answers = world.all_hits_each(&questions).unwrap();
    assert!(answers.len() == 300 && !answers.is_empty());
    assert_eq!(answers.iter().filter(|answer| *answer == handles).count(), 300);
    let mut reader = world.share().unwrap();
    assert_eq!(reader.all_hits_each(&questions), Ok(answers));
}

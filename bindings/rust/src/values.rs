//! What goes in and what comes out: the structs of `pungwelair.h`, with its words.

use crate::library::{self, Bits};

/// Why a call refused. A call that refuses changes nothing of a world but what its comment names.
#[derive(Clone, Copy, Debug, PartialEq, Eq, Hash)]
pub enum Error {
    /// No live box has the handle.
    Stale,
    /// 8,192 boxes live, or 64 marks are held.
    Full,
    /// Memory ran out, and what ran out wasn't done. After `add`, `shift` and `back` a world over `Plain` or `Sap` may be spent, which
    /// `info` tells: it keeps what it had, so add its boxes to another one and drop it. One over `Tree`, `Grid` or `Skin` never is. After
    /// any other call all is as before.
    NoMemory,
    /// A lower corner is above the upper one.
    Inverted,
    /// The world isn't open. No `World` of this crate is so, and no `Reader` is without one.
    Closed,
    /// A region whose lower corner is above the upper one, or lengths that don't agree.
    Argument,
    /// A number is at its end, which no game comes to. Each slot without a box was given 4,294,967,295 times, as many frames ended as 64
    /// bits count, or over sweep and prune 2^62 exchanges were counted since the last one.
    Exhausted,
    /// No mark is held to go back to.
    NoMark,
    /// A float is a NaN.
    NotANumber,
    /// A float is below -32,768 or above 32,767.99998, or an infinity.
    OutOfRange,
}

impl std::fmt::Display for Error {
    fn fmt(&self, to: &mut std::fmt::Formatter<'_>) -> std::fmt::Result {
        to.write_str(match self {
            Error::Stale => "no live box has the handle",
            Error::Full => "8,192 boxes live, or 64 marks are held",
            Error::NoMemory => "memory ran out",
            Error::Inverted => "a lower corner is above the upper one",
            Error::Closed => "the world isn't open",
            Error::Argument => "an inverted region, or lengths that don't agree",
            Error::Exhausted => "a number of the world is at its end",
            Error::NoMark => "no mark is held",
            Error::NotANumber => "a float is a NaN",
            Error::OutOfRange => "a float is out of range",
        })
    }
}

impl std::error::Error for Error {}

/// What a status of the library says.
pub(crate) fn told(status: u32) -> Result<(), Error> {
    Err(match status {
        0 => return Ok(()),
        1 => Error::Stale,
        2 => Error::Full,
        3 => Error::NoMemory,
        4 => Error::Inverted,
        5 => Error::Closed,
        7 => Error::Exhausted,
        8 => Error::NoMark,
        9 => Error::NotANumber,
        10 => Error::OutOfRange,
        _ => Error::Argument,
    })
}

/// A batch stopped: so many of its items were done, and why the next one was not.
#[derive(Clone, Copy, Debug, PartialEq, Eq, Hash)]
pub struct Stopped {
    /// How many items were done, and stay so.
    pub done: usize,
    /// Why the item behind them was refused.
    pub error: Error,
}

impl std::fmt::Display for Stopped {
    fn fmt(&self, to: &mut std::fmt::Formatter<'_>) -> std::fmt::Result {
        write!(to, "{} were done, and then {}", self.done, self.error)
    }
}

impl std::error::Error for Stopped {
    fn source(&self) -> Option<&(dyn std::error::Error + 'static)> {
        Some(&self.error)
    }
}

impl From<Stopped> for Error {
    /// The reason alone: how many were done is dropped.
    fn from(stopped: Stopped) -> Error {
        stopped.error
    }
}

/// How a world keeps its boxes. The answers are the same; the costs are not.
#[derive(Clone, Copy, Debug, PartialEq, Eq, Hash)]
pub enum Structure {
    /// Tests every two: for a few hundred boxes.
    Plain = 0,
    /// Sweep and prune: if you want exchanges counted. It is slow by far if boxes go far or are added often.
    Sap = 1,
    /// A dynamic tree of enlarged boxes: if few boxes move, or much is asked.
    Tree = 2,
    /// A hashed grid of levels: if most boxes move.
    Grid = 3,
    /// Boxes in skins, a margin around each, over the tree, which hears only of those that leave it: if boxes move by little in each
    /// tick, as bodies at rest or near it do.
    Skin = 4,
}

/// A place or a displacement, in raw units of 1/65,536. Its order is that of its numbers, for lists that are sorted and for maps: it
/// says nothing of places.
#[repr(C)]
#[derive(Clone, Copy, Debug, Default, PartialEq, Eq, PartialOrd, Ord, Hash)]
pub struct Point {
    /// Along the first axis.
    pub x: i32,
    /// Along the second axis.
    pub y: i32,
    /// Along the third axis.
    pub z: i32,
}

impl Point {
    /// Of three raw numbers.
    pub const fn new(x: i32, y: i32, z: i32) -> Point {
        Point { x, y, z }
    }
}

impl From<[i32; 3]> for Point {
    fn from([x, y, z]: [i32; 3]) -> Point {
        Point { x, y, z }
    }
}

impl From<Point> for [i32; 3] {
    fn from(at: Point) -> [i32; 3] {
        [at.x, at.y, at.z]
    }
}

/// A closed box. Boxes that touch meet. One whose `lo` is above its `hi` on some axis is no box, and is refused. Its order is that of its
/// numbers, as a [`Point`]'s.
#[repr(C)]
#[derive(Clone, Copy, Debug, Default, PartialEq, Eq, PartialOrd, Ord, Hash)]
pub struct Body {
    /// The lower corner, which is in the box.
    pub lo: Point,
    /// The upper corner, which is in it too.
    pub hi: Point,
}

impl Body {
    /// Of two corners. It keeps any numbers: a box that is inverted is refused by the call that it comes to.
    pub const fn new(lo: Point, hi: Point) -> Body {
        Body { lo, hi }
    }
}

impl From<[Point; 2]> for Body {
    /// Of the lower corner and the upper one.
    fn from([lo, hi]: [Point; 2]) -> Body {
        Body { lo, hi }
    }
}

impl From<([i32; 3], [i32; 3])> for Body {
    /// Of the lower corner and the upper one.
    fn from((lo, hi): ([i32; 3], [i32; 3])) -> Body {
        Body { lo: lo.into(), hi: hi.into() }
    }
}

/// The groups that a box is in and those that it sees, a bit each. Two boxes pair if each sees a group that the other is in.
#[repr(C)]
#[derive(Clone, Copy, Debug, PartialEq, Eq, PartialOrd, Ord, Hash)]
pub struct Masks {
    /// The groups that the box is in, by which questions find it. With 0 it pairs with no box, and a question finds it only
    /// if its mask is 0.
    pub is: u32,
    /// The groups that it sees.
    pub sees: u32,
}

impl Masks {
    /// Of the groups that a box is in, and those that it sees.
    pub const fn new(is: u32, sees: u32) -> Masks {
        Masks { is, sees }
    }
}

impl Default for Masks {
    /// In the first group, and sees all.
    fn default() -> Masks {
        Masks { is: 1, sees: u32::MAX }
    }
}

/// Whose a box is (0: nobody's), and whether it is fixed. Boxes of one owner don't pair, nor do two fixed ones.
#[repr(C)]
#[derive(Clone, Copy, Debug, Default, PartialEq, Eq, PartialOrd, Ord, Hash)]
pub struct Group {
    /// Whose the box is, and 0 for nobody's.
    pub owner: u32,
    fixed: u32,
}

impl Group {
    /// Of this owner, 0 for nobody's, and fixed or not.
    pub const fn new(owner: u32, fixed: bool) -> Group {
        Group { owner, fixed: fixed as u32 }
    }

    /// Whether the box is fixed.
    pub const fn is_fixed(&self) -> bool {
        self.fixed != 0
    }
}

/// How boxes come: nobody's, moving and seen by all unless it says otherwise. A batch comes in one way, so boxes that are sorted by it
/// make few batches.
#[repr(C)]
#[derive(Clone, Copy, Debug, Default, PartialEq, Eq, PartialOrd, Ord, Hash)]
pub struct How {
    /// Which other boxes they pair with. [`World::mask`](crate::World::mask) changes it later.
    pub masks: Masks,
    /// Whose they are, and whether they are fixed. [`World::regroup`](crate::World::regroup) changes it later.
    pub group: Group,
}

impl How {
    /// Of masks and a group.
    pub const fn new(masks: Masks, group: Group) -> How {
        How { masks, group }
    }
}

/// What names a live box: its slot, and how often that slot was given before. Index your own slices by the slot.
#[repr(C)]
#[derive(Clone, Copy, Debug, Default, PartialEq, Eq, PartialOrd, Ord, Hash)]
pub struct Handle {
    /// The place among the live boxes, below [`SLOTS`](crate::SLOTS). A new box takes the least free one.
    pub slot: u32,
    /// How often the slot was given before.
    pub generation: u32,
}

impl Handle {
    /// Of a slot and its generation, as where a saved world is read.
    pub const fn new(slot: u32, generation: u32) -> Handle {
        Handle { slot, generation }
    }

    /// The handle of no box, stale in every world. (The default one is that of the first box.)
    pub const NONE: Handle = Handle { slot: u32::MAX, generation: u32::MAX };
}

/// A live box.
#[repr(C)]
#[derive(Clone, Copy, Debug, Default, PartialEq, Eq, Hash)]
pub struct Live {
    /// Where it is.
    pub body: Body,
    /// Which other boxes it pairs with.
    pub masks: Masks,
    /// Whose it is, and whether it is fixed.
    pub group: Group,
}

/// Two boxes that meet, `a`'s slot below `b`'s.
#[repr(C)]
#[derive(Clone, Copy, Debug, Default, PartialEq, Eq, PartialOrd, Ord, Hash)]
pub struct Pair {
    /// The box of the lower slot.
    pub a: Handle,
    /// The box of the upper slot.
    pub b: Handle,
}

/// What became of a pair, in the order of a pair's life.
#[derive(Clone, Copy, Debug, PartialEq, Eq, PartialOrd, Ord, Hash)]
pub enum Event {
    /// It is new.
    Begin,
    /// It was there in the frame before, too.
    Stay,
    /// It was there in the frame before, and is no more.
    Over,
}

/// What the last update told of a pair. Changes come in its order: those that began, by their pairs, and then those that are over.
#[repr(C)]
#[derive(Clone, Copy, Debug, Default, PartialEq, Eq, PartialOrd, Ord, Hash)]
pub struct Told {
    // A number, since an enum may not be read from memory that other code wrote.
    event: u32,
    /// The pair. If it is over, a handle may be stale by now.
    pub pair: Pair,
}

impl Told {
    /// What became of it.
    pub fn event(&self) -> Event {
        match self.event {
            0 => Event::Begin,
            1 => Event::Stay,
            _ => Event::Over,
        }
    }
}

/// How many pairs the frame has that an update ended, how many events, and how many changes, which are the events of pairs that began or
/// are over.
#[repr(C)]
#[derive(Clone, Copy, Debug, Default, PartialEq, Eq, Hash)]
pub struct Frame {
    /// How many pairs the frame has.
    pub pairs: usize,
    /// How many events there are: the pairs, and those that are over.
    pub events: usize,
    /// How many of the events aren't of a pair that stayed.
    pub changes: usize,
}

/// A question by a shape.
#[derive(Clone, Copy, Debug, PartialEq, Eq, Hash)]
pub enum Query {
    /// Which boxes meet this one.
    Region(Body),
    /// Which boxes hold this place.
    Point(Point),
    /// Which boxes meet a ray, which has no end.
    Ray {
        /// Where it begins.
        from: Point,
        /// Where it goes, by any length. Zero asks for the boxes that hold `from`.
        direction: Point,
    },
    /// Which boxes meet a segment.
    Segment {
        /// Its one end, which is on it.
        from: Point,
        /// Its other end, which is on it too.
        to: Point,
    },
}

/// A question by a shape for the boxes that a mask asks for, as the library takes it: one of many that are asked by one call. With the
/// mask 0 it looks at no group, and finds every box, those in no group too.
#[repr(C)]
#[derive(Clone, Copy, Debug, PartialEq, Eq, Hash)]
pub struct Question {
    kind: u32,
    mask: u32,
    a: Point,
    b: Point,
}

impl Question {
    /// Of a shape and a mask. It keeps any numbers: a region that is inverted is refused by the call that it comes to.
    pub const fn new(query: Query, mask: u32) -> Question {
        let (kind, a, b) = match query {
            Query::Region(body) => (0, body.lo, body.hi),
            Query::Point(at) => (1, at, at),
            Query::Ray { from, direction } => (2, from, direction),
            Query::Segment { from, to } => (3, from, to),
        };
        Question { kind, mask, a, b }
    }
}

impl From<(Query, u32)> for Question {
    /// Of a shape and a mask.
    fn from((query, mask): (Query, u32)) -> Question {
        Question::new(query, mask)
    }
}

/// The answers to many questions, those to one behind those to another. It has all of them, or isn't given.
#[derive(Clone, Debug, Default, PartialEq, Eq, Hash)]
pub struct Answers {
    pub(crate) handles: Vec<Handle>,
    // How many handles there are up to the end of each answer.
    pub(crate) ends: Vec<usize>,
}

impl Answers {
    /// How many questions were asked.
    pub fn len(&self) -> usize {
        self.ends.len()
    }

    /// Whether no question was asked.
    pub fn is_empty(&self) -> bool {
        self.ends.is_empty()
    }

    /// What the question of this number found, the first being number 0. `None` if fewer were asked.
    pub fn get(&self, number: usize) -> Option<&[Handle]> {
        let end = *self.ends.get(number)?;
        let start = number.checked_sub(1).map_or(0, |last| self.ends[last]);
        self.handles.get(start..end)
    }

    /// What each question found, in order.
    pub fn iter(&self) -> impl Iterator<Item = &[Handle]> + '_ {
        (0..self.len()).filter_map(|number| self.get(number))
    }
}

/// A ray without end, for the boxes that `mask` asks for.
#[repr(C)]
#[derive(Clone, Copy, Debug, PartialEq, Eq, Hash)]
pub struct Ray {
    /// The groups whose boxes it may meet. With 0 it looks at no group, and may meet every box, those in no group too.
    pub mask: u32,
    /// Where it begins.
    pub from: Point,
    /// Where it goes, by any length. Zero asks for the boxes that hold `from`.
    pub direction: Point,
}

/// A box that is moved along a line, by a displacement, and meets boxes that `mask` asks for on its way.
#[repr(C)]
#[derive(Clone, Copy, Debug, PartialEq, Eq, Hash)]
pub struct Cast {
    /// The groups whose boxes it may meet. With 0 it looks at no group, and may meet every box, those in no group too.
    pub mask: u32,
    /// The box where it starts.
    pub body: Body,
    /// The way that it is moved.
    pub by: Point,
}

/// The boxes that are nearest to a place: at most `want`, of those that `mask` asks for.
#[repr(C)]
#[derive(Clone, Copy, Debug, PartialEq, Eq, Hash)]
pub struct Near {
    /// The groups whose boxes are looked at. With 0 every box is, those in no group too.
    pub mask: u32,
    /// How many are wanted at most.
    pub want: u32,
    /// The place.
    pub at: Point,
}

/// The boxes that are nearest to a box, of those that are at least so far from it: at most `want`, of those that `mask` asks for.
///
/// To go on behind an answer, ask from the square of its last box on, which [`World::square_apart`](crate::World::square_apart) tells:
/// boxes that are just as near are told again.
#[derive(Clone, Copy, Debug, PartialEq, Eq, Hash)]
pub struct NearBox {
    /// The groups whose boxes are looked at. With 0 every box is, those in no group too.
    pub mask: u32,
    /// How many are wanted at most.
    pub want: u32,
    /// The box.
    pub body: Body,
    /// The least square of a distance that is looked at, in raw units squared: 0 for all boxes, as those that meet `body` have 0.
    pub from: u128,
}

/// The same as the library takes it.
#[repr(C)]
pub struct RawNearBox {
    mask: u32,
    want: u32,
    body: Body,
    from: Square,
}

impl NearBox {
    pub(crate) fn raw(self) -> RawNearBox {
        let from = Square { low: self.from as u64, high: (self.from >> 64) as u64 };
        RawNearBox { mask: self.mask, want: self.want, body: self.body, from }
    }
}

/// Which side of a box, along an axis.
#[derive(Clone, Copy, Debug, PartialEq, Eq, PartialOrd, Ord, Hash)]
pub enum Side {
    /// The side at `lo`, whose normal points down.
    Lower,
    /// The side at `hi`, whose normal points up.
    Upper,
}

/// Where a ray or a moved box meets a box: at the place `num / den` of the way, exactly. That is 0 where the way begins, and 1 where it
/// ends, which a ray goes on past.
#[repr(C)]
#[derive(Clone, Copy, Debug, PartialEq, Eq, Hash)]
pub struct Hit {
    /// The box.
    pub handle: Handle,
    /// How many of the `den` parts of the way lead there: 0 or more.
    pub num: i64,
    /// Into how many parts the way is cut: 1 or more.
    pub den: i64,
    axis: u32,
    side: u32,
}

impl Hit {
    /// What stands in the place of a way that meets no box: its handle is that of no box.
    pub const NONE: Hit = Hit { handle: Handle::NONE, num: 0, den: 1, axis: 3, side: 0 };

    /// This hit, and `None` if it stands in the place of a way that meets no box.
    pub fn met(self) -> Option<Hit> {
        (self.handle != Handle::NONE).then_some(self)
    }

    /// The place as the double that is nearest to its fraction.
    pub fn place(&self) -> f64 {
        self.num as f64 / self.den as f64
    }

    /// The axis, 0 to 2, and the side by which the box is entered, of the lowest axis if there are several. `None` if the way begins in
    /// the box and comes in by no side.
    pub fn face(&self) -> Option<(usize, Side)> {
        (self.axis < 3).then_some((self.axis as usize, if self.side == 0 { Side::Lower } else { Side::Upper }))
    }

    /// The direction that this side faces, of length 1. `None` if there is no side.
    pub fn normal(&self) -> Option<[i32; 3]> {
        self.face().map(|(axis, side)| {
            let mut out = [0; 3];
            out[axis] = if side == Side::Upper { 1 } else { -1 };
            out
        })
    }
}

/// The square of a distance as the library has it: `high` times 2^64, and `low`.
#[repr(C)]
#[derive(Default)]
pub struct Square {
    low: u64,
    high: u64,
}

impl Square {
    pub(crate) fn number(&self) -> u128 {
        u128::from(self.high) << 64 | u128::from(self.low)
    }
}

/// What a world is. `exchanges` are those of the endpoint lists since the last frame if it is sweep and prune, and else 0.
#[repr(C)]
#[derive(Clone, Copy, Debug, Default, PartialEq, Eq, Hash)]
pub struct Info {
    structure: u32,
    spent: u32,
    /// How many boxes live.
    pub boxes: u32,
    /// How many marks are held.
    pub marks: u32,
    /// How many frames ended.
    pub frames: u64,
    /// How many exchanges the endpoint lists made since the last frame.
    pub exchanges: u64,
}

impl Info {
    /// How the world keeps its boxes.
    pub fn structure(&self) -> Structure {
        match self.structure {
            0 => Structure::Plain,
            1 => Structure::Sap,
            2 => Structure::Tree,
            3 => Structure::Grid,
            _ => Structure::Skin,
        }
    }

    /// Whether memory ran out in a change. Then the world tells what it had, as [`World::get`](crate::World::get) and
    /// [`World::pairs`](crate::World::pairs) do, and where one of its boxes is met and how far off it is. It refuses each other change and
    /// question with `NoMemory`.
    pub fn is_spent(&self) -> bool {
        self.spent != 0
    }
}

// The sizes that pungwelair.h gives on 64 bits.
#[cfg(target_pointer_width = "64")]
const _: () = {
    use std::mem::size_of;
    assert!(size_of::<Body>() == 24 && size_of::<How>() == 16 && size_of::<Live>() == 40 && size_of::<Told>() == 20);
    assert!(size_of::<Question>() == 32 && size_of::<Ray>() == 28 && size_of::<Cast>() == 40 && size_of::<Near>() == 20);
    assert!(size_of::<Square>() == 16 && size_of::<RawNearBox>() == 48 && size_of::<library::HeldReader>() == 16);
    assert!(size_of::<Hit>() == 32 && size_of::<Info>() == 32 && size_of::<Frame>() == 24 && size_of::<library::Held>() == 16);
};

/// The least box in raw units that holds a box of floats: the lower corner is rounded down and the upper one up, so boxes of floats
/// with a common point have boxes that meet. `NotANumber`, `OutOfRange` or `Inverted`: the first fault by axes.
pub fn box_around(lo: [f32; 3], hi: [f32; 3]) -> Result<Body, Error> {
    let [low, high] = [lo, hi].map(|at| Bits { x: at[0].to_bits(), y: at[1].to_bits(), z: at[2].to_bits() });
    let mut out = Body::default();
    // SAFETY: three references, which lead to three values of their own.
    told(unsafe { library::pw_box_around_32(&low, &high, &mut out) })?;
    Ok(out)
}

/// The same of doubles.
pub fn box_around_f64(lo: [f64; 3], hi: [f64; 3]) -> Result<Body, Error> {
    let [low, high] = [lo, hi].map(|at| Bits { x: at[0].to_bits(), y: at[1].to_bits(), z: at[2].to_bits() });
    let mut out = Body::default();
    // SAFETY: three references, which lead to three values of their own.
    told(unsafe { library::pw_box_around_64(&low, &high, &mut out) })?;
    Ok(out)
}

/// As [`box_around`], but cut to the range: what is below it or above it, as an infinity, becomes its end. A box that lies past the range
/// becomes a flat one at the end. `NotANumber` or `Inverted`: the first fault by axes.
pub fn box_around_cut(lo: [f32; 3], hi: [f32; 3]) -> Result<Body, Error> {
    box_around_cut_f64(lo.map(f64::from), hi.map(f64::from))
}

/// The same of doubles.
pub fn box_around_cut_f64(lo: [f64; 3], hi: [f64; 3]) -> Result<Body, Error> {
    let (mut low, mut high) = ([1.0; 3], [0.0; 3]);
    for axis in 0..3 {
        // Two numbers past one end are cut to one number, so what is inverted stays so. A NaN stays one too.
        if !(lo[axis] > hi[axis]) {
            low[axis] = cut_to_range(lo[axis]);
            high[axis] = cut_to_range(hi[axis]);
        }
    }
    box_around_f64(low, high)
}

// A number, or the end of the range that it is past.
fn cut_to_range(number: f64) -> f64 {
    number.clamp(f64::from(i32::MIN) / 65536.0, f64::from(i32::MAX) / 65536.0)
}

/// The greatest raw number that is at most 65,536 times a float. `NotANumber` or `OutOfRange`.
pub fn fix_below(number: f32) -> Result<i32, Error> {
    let mut out = 0;
    // SAFETY: a number, and a reference to a value of its own.
    told(unsafe { library::pw_fix_below_32(number.to_bits(), &mut out) })?;
    Ok(out)
}

/// The same of a double, which as a float could be above itself.
pub fn fix_below_f64(number: f64) -> Result<i32, Error> {
    let mut out = 0;
    // SAFETY: a number, and a reference to a value of its own.
    told(unsafe { library::pw_fix_below_64(number.to_bits(), &mut out) })?;
    Ok(out)
}

/// The least raw number that is at least 65,536 times a float. `NotANumber` or `OutOfRange`.
pub fn fix_above(number: f32) -> Result<i32, Error> {
    let mut out = 0;
    // SAFETY: a number, and a reference to a value of its own.
    told(unsafe { library::pw_fix_above_32(number.to_bits(), &mut out) })?;
    Ok(out)
}

/// The same of a double, which as a float could be below itself.
pub fn fix_above_f64(number: f64) -> Result<i32, Error> {
    let mut out = 0;
    // SAFETY: a number, and a reference to a value of its own.
    told(unsafe { library::pw_fix_above_64(number.to_bits(), &mut out) })?;
    Ok(out)
}

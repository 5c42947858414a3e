//! The functions of `pungwelair.h`, as this crate calls them.
//!
//! A reference or a slice's pointer leads to what it says, aligned and not null: that of an empty slice too, which is all that the
//! header asks of a pointer before a length of 0. What `&mut` leads to overlaps nothing else in the same call.

use crate::values::{
    Body, Cast, Frame, Group, Handle, Hit, How, Info, Live, Masks, Near, Pair, Point, Question, RawNearBox, Ray, Square, Told,
};
use std::ffi::c_void;

/// A world as the library has it. Zero is a closed one.
#[repr(C)]
pub struct Held {
    state: u32,
    held: *mut c_void,
}

impl Held {
    pub const CLOSED: Held = Held { state: 0, held: std::ptr::null_mut() };
}

/// A reader as the library has it. Zero is a closed one.
#[repr(C)]
pub struct HeldReader {
    state: u32,
    held: *mut c_void,
}

impl HeldReader {
    pub const CLOSED: HeldReader = HeldReader { state: 0, held: std::ptr::null_mut() };
}

/// The bits of three floats or doubles.
#[repr(C)]
pub struct Bits<N> {
    pub x: N,
    pub y: N,
    pub z: N,
}

#[rustfmt::skip]
extern "C" {
    pub fn pw_version() -> u32;
    pub fn pw_open(world: &mut Held, structure: u32) -> u32;
    pub fn pw_close(world: &mut Held) -> u32;
    pub fn pw_add(world: &mut Held, boxes: *const Body, boxes_len: usize, how: &How, out: *mut Handle, out_len: usize, done: &mut usize) -> u32;
    pub fn pw_move(world: &mut Held, handles: *const Handle, handles_len: usize, boxes: *const Body, boxes_len: usize, done: &mut usize) -> u32;
    pub fn pw_mask(world: &mut Held, handle: Handle, masks: Masks) -> u32;
    pub fn pw_regroup(world: &mut Held, handle: Handle, group: Group) -> u32;
    pub fn pw_remove(world: &mut Held, handles: *const Handle, handles_len: usize, done: &mut usize) -> u32;
    pub fn pw_get(world: &mut Held, handle: Handle, out: &mut Live) -> u32;
    pub fn pw_at(world: &mut Held, slot: u32, handle: &mut Handle, out: &mut Live) -> u32;
    pub fn pw_update(world: &mut Held, counts: &mut Frame) -> u32;
    pub fn pw_pairs(world: &mut Held, from: usize, out: *mut Pair, out_len: usize, copied: &mut usize) -> u32;
    pub fn pw_pairs_now(world: &mut Held, from: usize, out: *mut Pair, out_len: usize, count: &mut usize) -> u32;
    pub fn pw_events(world: &mut Held, from: usize, out: *mut Told, out_len: usize, copied: &mut usize) -> u32;
    pub fn pw_changes(world: &mut Held, from: usize, out: *mut Told, out_len: usize, copied: &mut usize) -> u32;
    pub fn pw_hits(world: &mut Held, query: &Question, out: *mut Handle, out_len: usize, count: &mut usize) -> u32;
    pub fn pw_ray_hits(world: &mut Held, ray: &Ray, out: *mut Handle, out_len: usize, count: &mut usize) -> u32;
    pub fn pw_cast_hits(world: &mut Held, cast: &Cast, out: *mut Handle, out_len: usize, count: &mut usize) -> u32;
    pub fn pw_ray_first(world: &mut Held, ray: &Ray, out: &mut Hit, count: &mut usize) -> u32;
    pub fn pw_cast_first(world: &mut Held, cast: &Cast, out: &mut Hit, count: &mut usize) -> u32;
    pub fn pw_ray_meets(world: &mut Held, ray: &Ray, handle: Handle, out: &mut Hit, count: &mut usize) -> u32;
    pub fn pw_cast_meets(world: &mut Held, cast: &Cast, handle: Handle, out: &mut Hit, count: &mut usize) -> u32;
    pub fn pw_square_to(world: &mut Held, at: &Point, handle: Handle, out: &mut Square) -> u32;
    pub fn pw_square_apart(world: &mut Held, body: &Body, handle: Handle, out: &mut Square) -> u32;
    pub fn pw_nearest(world: &mut Held, near_to: &Near, out: *mut Handle, out_len: usize, count: &mut usize) -> u32;
    pub fn pw_nearest_box(world: &mut Held, near_to: &RawNearBox, out: *mut Handle, out_len: usize, count: &mut usize) -> u32;
    pub fn pw_hits_each(world: &mut Held, queries: *const Question, queries_len: usize, out: *mut Handle, out_len: usize, ends: *mut usize, ends_len: usize, count: &mut usize) -> u32;
    pub fn pw_ray_first_each(world: &mut Held, rays: *const Ray, rays_len: usize, out: *mut Hit, out_len: usize, count: &mut usize) -> u32;
    pub fn pw_cast_first_each(world: &mut Held, casts: *const Cast, casts_len: usize, out: *mut Hit, out_len: usize, count: &mut usize) -> u32;
    pub fn pw_mark(world: &mut Held) -> u32;
    pub fn pw_forget(world: &mut Held, count: u32) -> u32;
    pub fn pw_back(world: &mut Held) -> u32;
    pub fn pw_info(world: &mut Held, out: &mut Info) -> u32;
    pub fn pw_reader_open(reader: &mut HeldReader) -> u32;
    pub fn pw_reader_close(reader: &mut HeldReader) -> u32;
    pub fn pw_share(world: &mut Held, reader: &mut HeldReader) -> u32;
    pub fn pw_join(reader: &mut HeldReader, other: &mut HeldReader) -> u32;
    pub fn pw_unshare(reader: &mut HeldReader, world: &mut Held) -> u32;
    pub fn pw_reader_hits(reader: &mut HeldReader, query: &Question, out: *mut Handle, out_len: usize, count: &mut usize) -> u32;
    pub fn pw_reader_ray_hits(reader: &mut HeldReader, ray: &Ray, out: *mut Handle, out_len: usize, count: &mut usize) -> u32;
    pub fn pw_reader_cast_hits(reader: &mut HeldReader, cast: &Cast, out: *mut Handle, out_len: usize, count: &mut usize) -> u32;
    pub fn pw_reader_ray_first(reader: &mut HeldReader, ray: &Ray, out: &mut Hit, count: &mut usize) -> u32;
    pub fn pw_reader_cast_first(reader: &mut HeldReader, cast: &Cast, out: &mut Hit, count: &mut usize) -> u32;
    pub fn pw_reader_ray_meets(reader: &mut HeldReader, ray: &Ray, handle: Handle, out: &mut Hit, count: &mut usize) -> u32;
    pub fn pw_reader_cast_meets(reader: &mut HeldReader, cast: &Cast, handle: Handle, out: &mut Hit, count: &mut usize) -> u32;
    pub fn pw_reader_square_to(reader: &mut HeldReader, at: &Point, handle: Handle, out: &mut Square) -> u32;
    pub fn pw_reader_square_apart(reader: &mut HeldReader, body: &Body, handle: Handle, out: &mut Square) -> u32;
    pub fn pw_reader_nearest(reader: &mut HeldReader, near_to: &Near, out: *mut Handle, out_len: usize, count: &mut usize) -> u32;
    pub fn pw_reader_nearest_box(reader: &mut HeldReader, near_to: &RawNearBox, out: *mut Handle, out_len: usize, count: &mut usize) -> u32;
    pub fn pw_reader_hits_each(reader: &mut HeldReader, queries: *const Question, queries_len: usize, out: *mut Handle, out_len: usize, ends: *mut usize, ends_len: usize, count: &mut usize) -> u32;
    pub fn pw_reader_ray_first_each(reader: &mut HeldReader, rays: *const Ray, rays_len: usize, out: *mut Hit, out_len: usize, count: &mut usize) -> u32;
    pub fn pw_reader_cast_first_each(reader: &mut HeldReader, casts: *const Cast, casts_len: usize, out: *mut Hit, out_len: usize, count: &mut usize) -> u32;
    pub fn pw_reader_get(reader: &mut HeldReader, handle: Handle, out: &mut Live) -> u32;
    pub fn pw_reader_at(reader: &mut HeldReader, slot: u32, handle: &mut Handle, out: &mut Live) -> u32;
    pub fn pw_reader_pairs(reader: &mut HeldReader, from: usize, out: *mut Pair, out_len: usize, copied: &mut usize) -> u32;
    pub fn pw_reader_events(reader: &mut HeldReader, from: usize, out: *mut Told, out_len: usize, copied: &mut usize) -> u32;
    pub fn pw_reader_changes(reader: &mut HeldReader, from: usize, out: *mut Told, out_len: usize, copied: &mut usize) -> u32;
    pub fn pw_reader_info(reader: &mut HeldReader, out: &mut Info) -> u32;
    pub fn pw_fix_below_32(bits: u32, out: &mut i32) -> u32;
    pub fn pw_fix_above_32(bits: u32, out: &mut i32) -> u32;
    pub fn pw_fix_below_64(bits: u64, out: &mut i32) -> u32;
    pub fn pw_fix_above_64(bits: u64, out: &mut i32) -> u32;
    pub fn pw_box_around_32(lo: &Bits<u32>, hi: &Bits<u32>, out: &mut Body) -> u32;
    pub fn pw_box_around_64(lo: &Bits<u64>, hi: &Bits<u64>, out: &mut Body) -> u32;
}

/// The questions to a world, and what is read of it.
pub mod of_world {
    pub use super::{
        pw_at as at, pw_cast_first as cast_first, pw_cast_first_each as cast_first_each, pw_cast_hits as cast_hits,
        pw_cast_meets as cast_meets, pw_changes as changes, pw_events as events, pw_get as get, pw_hits as hits, pw_hits_each as hits_each,
        pw_info as info, pw_nearest as nearest, pw_nearest_box as nearest_box, pw_pairs as pairs, pw_ray_first as ray_first,
        pw_ray_first_each as ray_first_each, pw_ray_hits as ray_hits, pw_ray_meets as ray_meets, pw_square_apart as square_apart,
        pw_square_to as square_to,
    };
}

/// The same by a reader.
pub mod of_reader {
    pub use super::{
        pw_reader_at as at, pw_reader_cast_first as cast_first, pw_reader_cast_first_each as cast_first_each,
        pw_reader_cast_hits as cast_hits, pw_reader_cast_meets as cast_meets, pw_reader_changes as changes, pw_reader_events as events,
        pw_reader_get as get, pw_reader_hits as hits, pw_reader_hits_each as hits_each, pw_reader_info as info,
        pw_reader_nearest as nearest, pw_reader_nearest_box as nearest_box, pw_reader_pairs as pairs, pw_reader_ray_first as ray_first,
        pw_reader_ray_first_each as ray_first_each, pw_reader_ray_hits as ray_hits, pw_reader_ray_meets as ray_meets,
        pw_reader_square_apart as square_apart, pw_reader_square_to as square_to,
    };
}

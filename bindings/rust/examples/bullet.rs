//! A bullet that is faster than walls are thick. Stepping it from place to place misses them; a cast along each step's way doesn't.
//! The shot is then taken back by a mark, and aimed again.

use pungwelair::{box_around, Body, Cast, Error, Group, Handle, How, Masks, Point, Query, Structure, World};

const UNIT: i32 = 65_536;
const WALLS: u32 = 1;
const TARGETS: u32 = 2;
const BULLETS: u32 = 4;
const STEPS: i32 = 4;

/// A wall of a twentieth of a unit.
fn wall_at(x: f32) -> Result<Body, Error> {
    box_around([x, 0.0, -4.0], [x + 0.05, 3.0, 4.0])
}

fn shifted(body: Body, by: Point) -> Body {
    let moved = |at: Point| Point { x: at.x + by.x, y: at.y + by.y, z: at.z + by.z };
    Body { lo: moved(body.lo), hi: moved(body.hi) }
}

/// Flies some steps of `way` each. It stops when a cast finds something, and tells what, and what it found where it stood.
fn shoot(world: &mut World, bullet: Handle, way: Point) -> Result<(Option<Handle>, usize), Error> {
    let mut stood_in = 0;
    for _ in 0..STEPS {
        let body = world.get(bullet)?.body;
        let mut met = [Handle::default(); 8];
        if world.cast_hits(Cast { mask: WALLS | TARGETS, body, by: way }, &mut met)? > 0 {
            return Ok((Some(met[0]), stood_in));
        }
        let there = shifted(body, way);
        world.shift(bullet, there)?;
        stood_in += world.hits(Query::Region(there), WALLS | TARGETS, &mut met)?;
    }
    Ok((None, stood_in))
}

/// What a bullet meets that is only looked at where each step ends.
fn step_alone(world: &mut World, bullet: Handle, way: Point) -> Result<usize, Error> {
    let mut met = 0;
    for _ in 0..STEPS {
        let there = shifted(world.get(bullet)?.body, way);
        world.shift(bullet, there)?;
        met += world.hits(Query::Region(there), WALLS | TARGETS, &mut [])?;
    }
    Ok(met)
}

fn main() -> Result<(), Error> {
    let mut world = World::new(Structure::Tree)?;
    let wall = How { masks: Masks { is: WALLS, sees: BULLETS | TARGETS }, group: Group::new(0, true) };
    let target = How { masks: Masks { is: TARGETS, sees: BULLETS | WALLS }, group: Group::default() };
    let shot = How { masks: Masks { is: BULLETS, sees: WALLS | TARGETS }, group: Group::default() };
    let names = ["near wall", "far wall", "target", "bullet"];
    for x in [5.0, 8.2] {
        world.add(wall_at(x)?, wall)?;
    }
    world.add(box_around([11.0, 1.0, 11.0], [12.0, 2.0, 12.0])?, target)?;
    let bullet = world.add(box_around([0.0, 1.4, 0.0], [0.1, 1.5, 0.1])?, shot)?;

    let straight = Point { x: 3 * UNIT, y: 0, z: 0 };
    world.mark()?;
    println!("stepping alone: {} met, {} pairs", step_alone(&mut world, bullet, straight)?, world.update()?.pairs);
    world.back()?;

    world.mark()?;
    let (met, stood_in) = shoot(&mut world, bullet, straight)?;
    println!("swept straight: {} met, {stood_in} stood in", met.map_or("nothing", |handle| names[handle.slot as usize]));
    let there = world.get(bullet)?.body.lo.x;
    world.back()?;
    println!("at {there}, back at {}, {} frames ended", world.get(bullet)?.body.lo.x, world.info()?.frames);

    // Past the walls' ends, which are four units to the side.
    let aside = Point { x: 3 * UNIT, y: 0, z: 3 * UNIT };
    let (met, _) = shoot(&mut world, bullet, aside)?;
    println!("swept aside: {} met", met.map_or("nothing", |handle| names[handle.slot as usize]));
    if let Some(target) = met {
        world.remove(target)?;
        println!("taken away again: {:?}", world.remove(target));
    }
    println!("a bullet of no size that isn't a number: {:?}", box_around([f32::NAN; 3], [0.0; 3]));
    Ok(())
}

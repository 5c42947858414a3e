//! A belt carries crates over two scales. Each step moves all crates by one batch, and reads which crate came onto a scale and which one
//! left it. `?` hands on every refusal, that of a batch too.

use pungwelair::{box_around, Body, Error, Event, Group, Handle, How, Masks, Structure, World};

const SCALE: u32 = 1;
const CRATE: u32 = 2;
const SCALES: usize = 2;
const CRATES: usize = 4;

// Crates touch one another on the belt, and only the scales are to know.
const CARRIED: How = How::new(Masks::new(CRATE, SCALE), Group::new(0, false));
const STANDING: How = How::new(Masks::new(SCALE, CRATE), Group::new(0, true));

fn scale_at(x: f32) -> Result<Body, Error> {
    box_around([x, -0.5, 0.0], [x + 2.0, 0.0, 1.0])
}

fn crate_at(x: f32) -> Result<Body, Error> {
    box_around([x, 0.0, 0.0], [x + 1.0, 1.0, 1.0])
}

/// Ends the frame, and says what the scales feel of it. They came first, so that theirs are the lower slots.
fn weigh(world: &mut World, when: &str) -> Result<(), Error> {
    let frame = world.update()?;
    for change in world.all_changes()? {
        let (scale, carried) = (change.pair.a.slot as usize, change.pair.b.slot as usize - SCALES);
        match change.event() {
            Event::Over => println!("{when}: crate {carried} leaves scale {scale}"),
            _ => println!("{when}: crate {carried} comes onto scale {scale}"),
        }
    }
    println!("{when}: {} on scales", frame.pairs);
    Ok(())
}

fn main() -> Result<(), Error> {
    let mut world = World::new(Structure::Skin)?;
    world.add_all(&[scale_at(3.0)?, scale_at(7.0)?], STANDING, &mut [Handle::NONE; SCALES])?;

    let mut places = [0.0, -1.0, -2.0, -3.0];
    let mut bodies = [Body::default(); CRATES];
    for (body, place) in bodies.iter_mut().zip(places) {
        *body = crate_at(place)?;
    }
    let mut crates = [Handle::NONE; CRATES];
    world.add_all(&bodies, CARRIED, &mut crates)?;
    weigh(&mut world, "at first")?;

    for step in 1..=6 {
        for (body, place) in bodies.iter_mut().zip(&mut places) {
            *place += 1.75;
            *body = crate_at(*place)?;
        }
        world.shift_all(&crates, &bodies)?;
        weigh(&mut world, &format!("step {step}"))?;
    }
    world.remove_all(&crates)?;
    weigh(&mut world, "taken away")
}

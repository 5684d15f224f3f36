//! The lamp program of a dashboard finds its nodes after a restart: lamp.c in
//! Rust, with the same output. The comments say by which rule of docs/WIRE.md
//! each line of lamp.out is so.

use eikelzwier::{Bus, Commands, HandleId, Peer, Refusal, User, ANSWER_LEN};

const ATLAS: Peer = Peer(0);
const LAMP: Peer = Peer(1);
/// The warning lamps: one node of the lamp's own, two slots of the atlas.
const WHAT: [&str; 3] = ["oil", "fuel", "belt"];
const FUEL: HandleId = HandleId(8);
const BELT: HandleId = HandleId(16);

/// The first start: the lamp keeps its handles in its seed, in a known order.
fn first_start(bus: &mut Bus) -> Result<[HandleId; 3], Refusal> {
    let oil = HandleId(4); // of its own choice
    bus.create(LAMP, oil)?;
    bus.create(ATLAS, FUEL)?;
    bus.create(ATLAS, BELT)?;
    let names = [
        oil,
        bus.transfer(ATLAS, FUEL, LAMP)?,
        bus.transfer(ATLAS, BELT, LAMP)?,
    ];
    bus.set_seed(LAMP, &names, b"v1")?;
    for (what, name) in WHAT.iter().zip(names) {
        println!("the lamp knows {what} as {}", name.0);
    }
    Ok(names)
}

/// A restart: the nodes are found again by the seed alone.
fn restart(bus: &mut Bus) -> Result<(), Refusal> {
    let mut answer = [0; ANSWER_LEN];
    let seed = bus.show_seed(LAMP, &mut answer)?.expect("it was set");
    let version = String::from_utf8_lossy(seed.payload);
    println!("the lamp restarts and reads its seed, {version}");
    for (what, name) in WHAT.iter().zip(seed.handles.iter()) {
        if name == HandleId::INVALID {
            println!("{what} is destroyed");
        } else {
            let sent = bus.send(LAMP, &[name], &[], b"on");
            let said = sent.err().map_or("done", Refusal::name);
            println!("{what} is {}: {said}", name.0);
        }
    }
    Ok(())
}

fn main() -> Result<(), Refusal> {
    let mut bus = Bus::new();
    bus.open(ATLAS, User(0))?;
    bus.open(LAMP, User(1))?;
    let names = first_start(&mut bus)?; // 4 of its own choice; 7 and 11, the first it is given
    bus.release(LAMP, names[1])?; // gone, and the slot lives: the seed holds no reference
    bus.destroy(ATLAS, BELT)?; // destroyed: the seed will show the invalid ID for it
    restart(&mut bus)?; // oil by the handle it still holds, fuel under a new ID, belt as destroyed
    restart(&mut bus) // the same again: showing the seed leaves it there
}

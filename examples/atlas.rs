//! The glyph atlas of a dashboard: atlas.c in Rust, with the same output. The
//! comments say by which rule of docs/WIRE.md each line of atlas.out is so.

use eikelzwier::{Bus, Commands, HandleId, Peer, Received, Refusal, User, ANSWER_LEN};

const ATLAS: Peer = Peer(0);
const PROGRAMS: [(&str, Peer); 3] = [("gauge", Peer(1)), ("map", Peer(2)), ("lamp", Peer(3))];
const SLOT: HandleId = HandleId(8); // at the atlas: of our choice, two lowest bits clear

/// A new glyph in the slot; each program gets its own name for it.
fn load(bus: &mut Bus) -> Result<HandleId, Refusal> {
    bus.create(ATLAS, SLOT)?;
    let mut name = HandleId::INVALID;
    for (who, peer) in PROGRAMS {
        name = bus.transfer(ATLAS, SLOT, peer)?;
        println!("{who} knows the slot as {}", name.0);
    }
    Ok(name) // the same number at all three
}

fn draw(bus: &mut Bus, program: usize, name: HandleId, glyph: &str) {
    let (who, peer) = PROGRAMS[program];
    let sent = bus.send(peer, &[name], &[], glyph.as_bytes());
    let said = sent.err().map_or("done", Refusal::name);
    println!("{who} draws {glyph} in {}: {said}", name.0);
}

fn receive_all(bus: &mut Bus, who: &str, peer: Peer) -> Result<(), Refusal> {
    let mut answer = [0; ANSWER_LEN];
    while let Some(received) = bus.receive(peer, &mut answer)? {
        match received {
            Received::Message(m) => {
                let glyph = String::from_utf8_lossy(m.payload);
                println!("{who} receives: message, {}, draw {glyph}", m.to.0)
            }
            Received::Destroyed(id) => println!("{who} receives: node destroyed, {}", id.0),
            Received::Released(id) => println!("{who} receives: node released, {}", id.0),
        }
    }
    Ok(())
}

fn main() -> Result<(), Refusal> {
    let mut bus = Bus::new();
    (0..4).try_for_each(|p| bus.open(Peer(p), User(p)))?;
    let eight = load(&mut bus)?; // 7, three times: the first ID that the bus gives to a peer
    draw(&mut bus, 0, eight, "8"); // done: the node lives
    receive_all(&mut bus, "atlas", ATLAS)?; // the message, for 8: the destination by its owner's ID
    draw(&mut bus, 1, eight, "8"); // done: queued, and now the slot is evicted
    bus.destroy(ATLAS, SLOT)?;
    bus.release(ATLAS, SLOT)?; // with the owner's handle go the messages queued for the node
    let three = load(&mut bus)?; // the owner's ID is free again; the others get 11, never 7 again
    draw(&mut bus, 1, eight, "8"); // EHOSTUNREACH: the map's 7 is still the old node, destroyed
    draw(&mut bus, 2, three, "3"); // done
    receive_all(&mut bus, "atlas", ATLAS)?; // the 3 alone: the map's 8 was dropped
    let mut told = PROGRAMS.iter(); // destroyed: every holder is told, by its own ID, 7
    told.try_for_each(|(who, peer)| receive_all(&mut bus, who, *peer))
}

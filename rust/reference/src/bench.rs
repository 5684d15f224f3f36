//! Benchmark scripts, and the timing of one or more cores on them.
//!
//! The frames lie ready in memory and nothing is read or written while the
//! clock runs. Every core is reset before each run, so each starts from a
//! fresh bus; the reset and the script's preparation are not timed. Before
//! any timing, each core runs the script once: nothing may be refused, and
//! all cores must give the same answers to the byte.

use std::hint::black_box;
use std::time::Instant;

use crate::bus::{Bus, ANSWER_LEN};
use crate::script::Random;

/// A core to be timed.
pub trait Core {
    /// Makes a fresh bus.
    fn reset(&mut self);

    /// Carries out one frame; the number and the answer's length.
    fn command(&mut self, frame: &[u8], answer: &mut [u8; ANSWER_LEN]) -> (u8, usize);
}

/// The bus of this crate as a core.
#[derive(Default)]
pub struct Reference(Bus);

impl Core for Reference {
    fn reset(&mut self) {
        self.0 = Bus::new();
    }

    #[inline]
    fn command(&mut self, frame: &[u8], answer: &mut [u8; ANSWER_LEN]) -> (u8, usize) {
        let outcome = self.0.command(frame, answer);
        (outcome.number, outcome.len)
    }
}

/// A list of frames; the first ones prepare the bus and are not timed.
pub struct Script {
    /// What it measures.
    pub name: String,
    bytes: Vec<u8>,
    /// Where each frame ends.
    ends: Vec<usize>,
    prepared: usize,
}

impl Script {
    fn new(name: String) -> Script {
        Script {
            name,
            bytes: Vec::new(),
            ends: Vec::new(),
            prepared: 0,
        }
    }

    /// How many commands are timed.
    pub fn timed(&self) -> usize {
        self.ends.len() - self.prepared
    }

    /// All frames, those of the preparation first.
    pub fn frames(&self) -> impl Iterator<Item = &[u8]> {
        self.part(0, self.ends.len())
    }

    fn part(&self, from: usize, to: usize) -> impl Iterator<Item = &[u8]> {
        let mut start = if from == 0 { 0 } else { self.ends[from - 1] };
        self.ends[from..to].iter().map(move |&end| {
            let frame = &self.bytes[start..end];
            start = end;
            frame
        })
    }

    fn push(&mut self, parts: &[&[u8]]) {
        for part in parts {
            self.bytes.extend_from_slice(part);
        }
        self.ends.push(self.bytes.len());
    }

    fn id(&mut self, command: u8, peer: u8, id: u64) {
        self.push(&[&[command, peer], &id.to_be_bytes()]);
    }

    fn send(&mut self, peer: u8, to: u64, payload: &[u8]) {
        let nb = (payload.len() as u16).to_be_bytes();
        self.push(&[&[0x07, peer, 1, 0], &nb, &to.to_be_bytes(), payload]);
    }

    fn receive(&mut self, peer: u8) {
        self.push(&[&[0x08, peer, 0xff, 0xff]]);
    }

    /// Eight open peers of four users. Each owns node 0 and holds everybody's.
    fn prepare(&mut self) {
        for peer in 0..8 {
            self.push(&[&[0x01, peer, peer % 4]]);
            self.id(0x03, peer, 0);
        }
        for owner in 0..8 {
            for to in (0..8).filter(|to| *to != owner) {
                self.push(&[&[0x06, owner], &0u64.to_be_bytes(), &[to]]);
            }
        }
    }

    /// What `peer` calls `owner`'s node 0 after [`Script::prepare`].
    fn known_as(peer: u8, owner: u8) -> u64 {
        match owner {
            _ if owner == peer => 0,
            _ if owner < peer => 4 * (u64::from(owner) + 1) + 3,
            _ => 4 * u64::from(owner) + 3,
        }
    }

    /// Sends to a peer from one of the others.
    fn send_from_another(&mut self, random: &mut Random, to: u8, payload: &[u8]) {
        let from = (to + 1 + random.below(7) as u8) % 8;
        self.send(from, Script::known_as(from, to), payload);
    }

    /// A send and a receive, `pairs` times, among eight peers. Each receive
    /// finds `depth` messages of `nb` bytes queued.
    pub fn messages(depth: usize, nb: usize, pairs: usize) -> Script {
        let mut script = Script::new(format!("send and receive, depth {depth}, {nb} bytes"));
        let mut random = Random::new(1);
        let payload: Vec<u8> = (0..nb).map(|_| random.draw() as u8).collect();
        script.prepare();
        for peer in 0..8 {
            for _ in 1..depth {
                script.send_from_another(&mut random, peer, &payload);
            }
        }
        script.prepared = script.ends.len();
        for _ in 0..pairs {
            let to = random.below(8) as u8;
            script.send_from_another(&mut random, to, &payload);
            script.receive(to);
        }
        script
    }

    /// A create, a destroy and the releases, `times` times. The owner already
    /// has `others` nodes, `queued` messages wait at each peer, and `holders`
    /// other peers get the node by a transfer before it is destroyed.
    pub fn destroys(others: u64, queued: usize, holders: u8, times: usize) -> Script {
        let mut script = Script::new(format!(
            "create, {}destroy, release, {others} other nodes, {queued} queued",
            if holders > 0 {
                format!("{holders} transfers, ")
            } else {
                String::new()
            }
        ));
        let mut random = Random::new(2);
        script.prepare();
        for peer in 0..8 {
            for node in 1..others {
                script.id(0x03, peer, 4 * node);
            }
            for _ in 0..queued {
                script.send_from_another(&mut random, peer, &[]);
            }
        }
        script.prepared = script.ends.len();
        // How many IDs the preparation gave at each peer.
        let mut given = [7u64; 8];
        for n in 0..times {
            let owner = (n % 8) as u8;
            let id = 4 * (16 + n as u64 % 1000);
            script.id(0x03, owner, id);
            let to = |h: u8| (owner + 1 + h) % 8;
            for holder in (0..holders).map(to) {
                script.push(&[&[0x06, owner], &id.to_be_bytes(), &[holder]]);
                given[usize::from(holder)] += 1;
            }
            script.id(0x04, owner, id);
            for holder in (0..holders).map(to) {
                script.id(0x05, holder, 4 * given[usize::from(holder)] + 3);
            }
            script.id(0x05, owner, id);
        }
        script
    }

    /// All benchmark scripts: a million sends and receives each, and a
    /// hundred thousand destroys each.
    pub fn all() -> Vec<Script> {
        let mut scripts: Vec<Script> = [(1, 0), (30, 0), (1, 32), (30, 32), (1, 512), (4, 512)]
            .into_iter()
            .map(|(depth, nb)| Script::messages(depth, nb, 500_000))
            .collect();
        for (others, queued, holders) in [(1, 0, 0), (1, 0, 1), (15, 30, 0), (15, 30, 7)] {
            scripts.push(Script::destroys(others, queued, holders, 100_000));
        }
        scripts
    }
}

/// What one core took on one script, in nanoseconds a command.
#[derive(Clone, Copy, Debug)]
pub struct Times {
    /// The median run.
    pub median: f64,
    /// The fastest run.
    pub best: f64,
    /// Each block of commands in its fastest run. On a busy machine this is
    /// what the others disturb least.
    pub quiet: f64,
}

impl Times {
    /// From the nanoseconds of each block in each run.
    fn of(runs: &[Vec<u64>], commands: usize) -> Times {
        let a_command = |nanoseconds: u64| nanoseconds as f64 / commands as f64;
        let mut whole: Vec<u64> = runs.iter().map(|blocks| blocks.iter().sum()).collect();
        whole.sort_unstable();
        let quiet = (0..runs[0].len())
            .filter_map(|block| runs.iter().map(|blocks| blocks[block]).min())
            .sum();
        Times {
            median: a_command(whole[whole.len() / 2]),
            best: a_command(whole[0]),
            quiet: a_command(quiet),
        }
    }
}

/// Commands timed as one block.
const BLOCK: usize = 2000;

/// Runs a script once, untimed, and returns a digest (FNV-1a) of all answers.
///
/// # Errors
/// Tells the first command that is refused.
pub fn digest(core: &mut dyn Core, script: &Script) -> Result<u64, String> {
    let mut answer = [0; ANSWER_LEN];
    let mut digest = 0xcbf2_9ce4_8422_2325u64;
    core.reset();
    for (place, frame) in script.frames().enumerate() {
        let (number, len) = core.command(frame, &mut answer);
        if number != 0 {
            return Err(format!(
                "{}: command {place} refused, {number}",
                script.name
            ));
        }
        for &byte in (len as u64).to_be_bytes().iter().chain(&answer[..len]) {
            digest = (digest ^ u64::from(byte)).wrapping_mul(0x100_0000_01b3);
        }
    }
    Ok(digest)
}

/// Runs a script on a fresh bus; the nanoseconds of each block.
fn run(core: &mut dyn Core, script: &Script) -> Vec<u64> {
    let mut answer = [0; ANSWER_LEN];
    core.reset();
    for frame in script.part(0, script.prepared) {
        core.command(frame, &mut answer);
    }
    let all = script.ends.len();
    (script.prepared..all)
        .step_by(BLOCK)
        .map(|from| {
            let start = Instant::now();
            for frame in script.part(from, all.min(from + BLOCK)) {
                black_box(core.command(black_box(frame), &mut answer));
                black_box(&mut answer);
            }
            start.elapsed().as_nanos() as u64
        })
        .collect()
}

/// Times the cores on a script, in turn, `rounds` times each.
///
/// # Errors
/// If a command is refused, or the cores' answers differ.
pub fn measure(
    cores: &mut [&mut dyn Core],
    script: &Script,
    rounds: usize,
) -> Result<Vec<Times>, String> {
    let mut digests = Vec::new();
    for core in cores.iter_mut() {
        digests.push(digest(*core, script)?);
    }
    digests.dedup();
    if digests.len() > 1 {
        return Err(format!("{}: the answers differ", script.name));
    }
    let mut times = vec![Vec::new(); cores.len()];
    for _ in 0..rounds.max(1) {
        for (core, times) in cores.iter_mut().zip(&mut times) {
            times.push(run(*core, script));
        }
    }
    Ok(times
        .iter()
        .map(|runs| Times::of(runs, script.timed()))
        .collect())
}

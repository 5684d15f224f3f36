//! Random scripts for the line program, the same for the same seed.
//!
//! The generator runs its own bus beside the script. A refused command leaves
//! the bus alone, so a refused draft can be thrown away and another drawn:
//! that is how most commands of a script come to be accepted and deep states
//! are reached.

use crate::bus::{Bus, HandleView, ANSWER_LEN};
use crate::frame::{MAX_ATTACHED, MAX_DESTINATIONS, MAX_PAYLOAD};
use crate::ids::{HandleId, Peer};
use crate::line::MAX_DIGITS;

/// SplitMix64.
#[derive(Clone, Debug)]
pub struct Random(u64);

impl Random {
    /// The sequence of this seed.
    pub fn new(seed: u64) -> Random {
        Random(seed)
    }

    /// The next number.
    pub fn draw(&mut self) -> u64 {
        self.0 = self.0.wrapping_add(0x9e37_79b9_7f4a_7c15);
        let mut z = self.0;
        z = (z ^ (z >> 30)).wrapping_mul(0xbf58_476d_1ce4_e5b9);
        z = (z ^ (z >> 27)).wrapping_mul(0x94d0_49bb_1331_11eb);
        z ^ (z >> 31)
    }

    /// A number below `n`, which is not 0.
    pub fn below(&mut self, n: usize) -> usize {
        (self.draw() % n as u64) as usize
    }

    /// True `percent` times in a hundred.
    pub fn chance(&mut self, percent: usize) -> bool {
        self.below(100) < percent
    }

    /// One of the items, if there are any.
    pub fn pick<T: Copy>(&mut self, items: &[T]) -> Option<T> {
        (!items.is_empty()).then(|| items[self.below(items.len())])
    }
}

/// What a script is about.
#[derive(Clone, Copy, PartialEq, Eq, Debug)]
pub enum Profile {
    /// Mostly accepted commands, in phases that reach deep states: full
    /// queues, many nodes, handles passed on, notices, late peers.
    Legal,
    /// Frames and lines with something wrong, among legal ones.
    Malformed,
    /// Sends at the quota's edge from four users to few peers.
    Quota,
    /// Nodes created, destroyed and released at the limit of 16.
    Churn,
    /// Nodes destroyed while messages carry them: handles let go meanwhile,
    /// carriers dropped, disconnects, seeds of the same nodes.
    Order,
}

impl Profile {
    /// Every profile.
    pub const ALL: [Profile; 5] = [
        Profile::Legal,
        Profile::Malformed,
        Profile::Quota,
        Profile::Churn,
        Profile::Order,
    ];

    /// Its name on the command line.
    pub fn name(self) -> &'static str {
        match self {
            Profile::Legal => "legal",
            Profile::Malformed => "malformed",
            Profile::Quota => "quota",
            Profile::Churn => "churn",
            Profile::Order => "order",
        }
    }

    /// The profile of this name.
    pub fn from_name(name: &str) -> Option<Profile> {
        Profile::ALL.into_iter().find(|p| p.name() == name)
    }
}

/// How often each command is drafted, and what its operands are like.
#[derive(Clone, Copy)]
struct Phase {
    create: usize,
    destroy: usize,
    release: usize,
    transfer: usize,
    send: usize,
    receive: usize,
    question: usize,
    /// Seeds, half of them set and half shown.
    seed: usize,
    /// How often a send goes to the peer in focus, in percent.
    focus: usize,
    /// How often a send has attached handles, in percent.
    attach: usize,
    /// How often the sizes of a send are large, in percent.
    large: usize,
    /// How often the node of a destroy, or a dead one of a release, is one that
    /// an earlier message carries, in percent.
    carried: usize,
}

const MIXED: Phase = Phase {
    create: 6,
    destroy: 2,
    release: 8,
    transfer: 12,
    send: 25,
    receive: 25,
    question: 4,
    seed: 4,
    focus: 30,
    attach: 40,
    large: 10,
    carried: 0,
};

/// How every script begins: nodes are made and handed about.
const FIRST: Phase = Phase {
    create: 20,
    transfer: 50,
    send: 5,
    receive: 3,
    release: 2,
    destroy: 0,
    ..MIXED
};

const GIVEN_BACK: Phase = Phase {
    release: 250,
    transfer: 5,
    receive: 10,
    send: 4,
    attach: 20,
    ..MIXED
};

/// The phases of the legal profile, taken at random.
const PHASES: [Phase; 9] = [
    MIXED,
    // Queues fill.
    Phase {
        send: 90,
        receive: 3,
        release: 2,
        focus: 70,
        ..MIXED
    },
    // Small messages to one peer, until its queue is full.
    Phase {
        send: 120,
        receive: 1,
        release: 1,
        destroy: 0,
        focus: 97,
        attach: 5,
        large: 0,
        ..MIXED
    },
    // Queues drain.
    Phase {
        send: 4,
        receive: 90,
        ..MIXED
    },
    // Handles are passed on, many in one message.
    Phase {
        transfer: 40,
        send: 40,
        receive: 30,
        release: 3,
        attach: 95,
        ..MIXED
    },
    // Nodes come and go.
    Phase {
        create: 40,
        destroy: 15,
        release: 40,
        transfer: 30,
        send: 15,
        receive: 10,
        attach: 80,
        ..MIXED
    },
    // Handles are given back: release notices.
    GIVEN_BACK,
    // Seeds are set and shown, and their nodes go.
    Phase {
        create: 20,
        destroy: 10,
        release: 60,
        send: 8,
        receive: 8,
        seed: 60,
        attach: 85,
        ..MIXED
    },
    // Nodes are destroyed while messages carry them.
    ORDER,
];

const QUOTA: Phase = Phase {
    create: 2,
    destroy: 0,
    release: 1,
    transfer: 6,
    send: 70,
    receive: 16,
    question: 12,
    seed: 3,
    focus: 85,
    attach: 50,
    large: 30,
    carried: 0,
};

const CHURN: Phase = Phase {
    create: 40,
    destroy: 18,
    release: 40,
    transfer: 20,
    send: 18,
    receive: 12,
    question: 4,
    seed: 12,
    focus: 30,
    attach: 85,
    large: 3,
    carried: 0,
};

/// Carriers are queued, their nodes destroyed, and handles to them let go
/// before the carriers are taken out.
const ORDER: Phase = Phase {
    create: 14,
    destroy: 16,
    release: 40,
    transfer: 10,
    send: 46,
    receive: 22,
    question: 2,
    seed: 8,
    focus: 40,
    attach: 92,
    large: 1,
    carried: 75,
};

/// Peers that are never disconnected, so that a script does not run dry.
const KEPT: usize = 2;

/// Draws the lines of one script.
pub struct Generator {
    random: Random,
    profile: Profile,
    lines: usize,
    bus: Bus,
    answer: [u8; ANSWER_LEN],
    frame: Vec<u8>,
    phase: Phase,
    phase_left: usize,
    focus: Peer,
    /// Bit p is set if peer p was ever opened.
    opened: u8,
    accepted: usize,
}

impl Generator {
    /// A generator for a script of about `lines` lines.
    pub fn new(seed: u64, lines: usize, profile: Profile) -> Generator {
        Generator {
            random: Random::new(seed ^ (profile as u64) << 56),
            profile,
            lines: lines.max(1),
            bus: Bus::new(),
            answer: [0; ANSWER_LEN],
            frame: Vec::new(),
            phase: FIRST,
            phase_left: (lines / 8).min(60),
            focus: Peer::all().next().expect("there are peers"),
            opened: 0,
            accepted: 0,
        }
    }

    /// The bus after the lines drawn so far.
    pub fn bus(&self) -> &Bus {
        &self.bus
    }

    /// How many of the lines drawn so far were accepted commands or answered
    /// questions.
    pub fn accepted(&self) -> usize {
        self.accepted
    }

    /// Draws a whole script.
    pub fn script(&mut self) -> Vec<u8> {
        let mut script = Vec::new();
        for _ in 0..self.lines {
            self.line(&mut script);
        }
        if self.profile == Profile::Malformed && self.random.chance(50) && !script.is_empty() {
            // The last line lacks its LF.
            script.pop();
        }
        script
    }

    /// Draws the next line, with its LF, and runs it on the generator's bus.
    pub fn line(&mut self, out: &mut Vec<u8>) {
        if self.profile == Profile::Malformed && self.random.chance(50) {
            return self.malformed_line(out);
        }
        for _ in 0..12 {
            self.draft();
            let number = self.run();
            // How many refused drafts in a hundred are kept.
            let keep = match (self.profile, number) {
                (_, 0) => break,
                (Profile::Quota, 122) => 60,
                (Profile::Churn, 1 | 17 | 28 | 113) => 35,
                (Profile::Order, 28 | 113) => 20,
                (Profile::Malformed, _) => 25,
                _ => 6,
            };
            if self.random.chance(keep) {
                break;
            }
        }
        hex(&self.frame, out);
        out.push(b'\n');
    }

    /// Runs the draft on the bus and returns 0 or the refusal's number.
    fn run(&mut self) -> u8 {
        let number = self.bus.command(&self.frame, &mut self.answer).number;
        if number == 0 {
            self.accepted += 1;
            if let [0x01, peer, _] = self.frame[..] {
                self.opened |= 1 << peer;
            }
        }
        number
    }

    fn open_peers(&self) -> Vec<Peer> {
        Peer::all()
            .filter(|peer| self.bus.user(*peer).is_some())
            .collect()
    }

    fn any_peer(&mut self) -> Peer {
        let all: Vec<Peer> = Peer::all().collect();
        all[self.random.below(all.len())]
    }

    /// An open peer, now and then any peer.
    fn peer(&mut self) -> Peer {
        let open = self.open_peers();
        match self.random.pick(&open) {
            Some(peer) if !self.random.chance(1) => peer,
            _ => self.any_peer(),
        }
    }

    /// An ID that the peer holds and that fits, now and then another.
    fn held(&mut self, peer: Peer, fits: impl Fn(&HandleView) -> bool) -> HandleId {
        let handles = self.bus.handles(peer);
        let fitting: Vec<HandleView> = handles.iter().copied().filter(fits).collect();
        let odd = self.random.below(100);
        let chosen = match odd {
            0 => None,
            1..=3 => self.random.pick(&handles),
            _ => self.random.pick(&fitting),
        };
        match chosen {
            Some(view) => view.id,
            None => self.some_id(),
        }
    }

    /// Whether this time a node that an earlier message carries is wanted, and
    /// the peer holds one that fits.
    fn carried(&mut self, peer: Peer, fits: impl Fn(&HandleView) -> bool) -> bool {
        if self.phase.carried == 0 || !self.random.chance(self.phase.carried) {
            return false;
        }
        let handles = self.bus.handles(peer);
        handles.iter().any(|view| view.carried && fits(view))
    }

    /// An ID out of a few, so that the same ones come again.
    fn some_id(&mut self) -> HandleId {
        match self.random.below(20) {
            0 => HandleId::INVALID,
            1 => HandleId(self.random.draw()),
            2 => HandleId(u64::MAX - 3),
            3..=8 => HandleId::given(1 + self.random.below(40) as u64),
            _ => HandleId(4 * self.random.below(24) as u64),
        }
    }

    fn start(&mut self, command: u8, peer: Peer) {
        self.frame.clear();
        self.frame.extend([command, peer.number()]);
    }

    fn with_id(&mut self, command: u8, peer: Peer, id: HandleId) {
        self.start(command, peer);
        self.frame.extend(id.to_bytes());
    }

    /// Drafts one command into the frame.
    fn draft(&mut self) {
        self.next_phase();
        let open = self.open_peers();
        // Some peers open at once, the others in the course of the script;
        // about five disconnect.
        let opened = self.opened.count_ones() as usize;
        let opening = if opened < 8 && open.len() < 4 {
            self.random.chance(30)
        } else if opened < 8 {
            self.random.below(self.lines) < 9
        } else {
            self.random.below(self.lines) < 2
        };
        if open.is_empty() || opening {
            return self.draft_open();
        }
        if open.len() > KEPT && self.random.below(self.lines) < 5 {
            let peer = self.peer();
            return self.start(0x02, peer);
        }
        let Phase {
            create,
            destroy,
            release,
            transfer,
            send,
            receive,
            question,
            seed,
            ..
        } = self.phase;
        let weights = [
            create, destroy, release, transfer, send, receive, seed, question,
        ];
        let mut at = self.random.below(weights.iter().sum());
        let command = weights
            .iter()
            .position(|weight| {
                let here = at < *weight;
                at = at.saturating_sub(*weight);
                here
            })
            .unwrap_or(0);
        let peer = self.peer();
        match command {
            0 => {
                let mut id = self.some_id();
                if !self.random.chance(3) {
                    id.0 &= !3;
                }
                self.with_id(0x03, peer, id);
            }
            1 => {
                let own = |view: &HandleView| view.live && view.owner == peer;
                let carried = self.carried(peer, own);
                let id = self.held(peer, |view| own(view) && (view.carried || !carried));
                self.with_id(0x04, peer, id);
            }
            2 if self.carried(peer, |view| !view.live) => {
                let id = self.held(peer, |view| !view.live && view.carried);
                self.with_id(0x05, peer, id);
            }
            2 => {
                // Often one that brings the sum of counts near 1.
                let most = if self.random.chance(40) { 3 } else { u64::MAX };
                let id = self.held(peer, |view| {
                    view.sum <= most && !(view.live && view.owner == peer && view.count == 1)
                });
                self.with_id(0x05, peer, id);
            }
            3 => {
                // Often one that may have a release notice standing.
                let most = if self.random.chance(30) { 1 } else { u64::MAX };
                let id = self.held(peer, |view| view.live && view.sum <= most);
                let to = self.peer();
                self.with_id(0x06, peer, id);
                self.frame.push(to.number());
            }
            4 => self.draft_send(peer),
            5 => self.draft_receive(),
            6 => self.draft_seed(peer),
            _ => self.draft_question(peer),
        }
    }

    /// Draws a new phase when the last one is over.
    fn next_phase(&mut self) {
        if self.phase_left > 0 {
            self.phase_left -= 1;
            return;
        }
        self.phase_left = 40 + self.random.below(360);
        self.focus = self.peer();
        self.phase = match self.profile {
            Profile::Legal => PHASES[self.random.below(PHASES.len())],
            Profile::Malformed => MIXED,
            Profile::Churn => CHURN,
            // Carriers pile up, or are taken out.
            Profile::Order => match self.random.below(3) {
                0 => Phase {
                    send: 70,
                    receive: 6,
                    ..ORDER
                },
                1 => Phase {
                    send: 20,
                    receive: 60,
                    ..ORDER
                },
                _ => ORDER,
            },
            // Each phase presses on one resource.
            Profile::Quota => match self.random.below(4) {
                0 => Phase {
                    attach: 0,
                    large: 0,
                    ..QUOTA
                },
                1 => Phase {
                    attach: 5,
                    large: 90,
                    ..QUOTA
                },
                2 => Phase {
                    attach: 95,
                    large: 5,
                    ..QUOTA
                },
                _ => QUOTA,
            },
        };
    }

    fn draft_open(&mut self) {
        let never: Vec<Peer> = Peer::all()
            .filter(|peer| self.opened & peer.bit() == 0)
            .collect();
        let peer = match self.random.pick(&never) {
            Some(peer) if !self.random.chance(3) => peer,
            _ => self.any_peer(),
        };
        let user = self.random.below(4) as u8;
        self.start(0x01, peer);
        self.frame.push(user);
    }

    fn draft_send(&mut self, peer: Peer) {
        let Phase {
            focus: focused,
            attach,
            large,
            ..
        } = self.phase;
        let focus = self.focus;
        let nd = if self.random.chance(60) {
            1
        } else {
            1 + self.random.below(MAX_DESTINATIONS)
        };
        let (nh, nb) = self.sizes(attach, large);
        let reaches_focus = self
            .bus
            .handles(peer)
            .iter()
            .any(|view| view.live && view.owner == focus);
        self.start(0x07, peer);
        self.frame.extend([nd as u8, nh as u8]);
        self.frame.extend((nb as u16).to_be_bytes());
        for _ in 0..nd {
            let to_focus = reaches_focus && self.random.chance(focused);
            let id = self.held(peer, |view| view.live && (view.owner == focus || !to_focus));
            self.frame.extend(id.to_bytes());
        }
        self.draft_contents(peer, nh, nb);
    }

    /// How many attached handles and payload bytes.
    fn sizes(&mut self, attach: usize, large: usize) -> (usize, usize) {
        let nh = if self.random.chance(attach) {
            1 + self.random.below(MAX_ATTACHED)
        } else {
            0
        };
        let nb = if self.random.chance(large) {
            match self.random.below(3) {
                0 => MAX_PAYLOAD,
                1 => MAX_PAYLOAD - 1 - self.random.below(3),
                _ => self.random.below(MAX_PAYLOAD + 1),
            }
        } else {
            self.random.below(12)
        };
        (nh, nb)
    }

    /// The attached handles, of live and of destroyed nodes, and the payload.
    fn draft_contents(&mut self, peer: Peer, nh: usize, nb: usize) {
        for _ in 0..nh {
            let id = self.held(peer, |_| true);
            self.frame.extend(id.to_bytes());
        }
        for _ in 0..nb {
            let byte = self.random.draw() as u8;
            self.frame.push(byte);
        }
    }

    /// A seed that is set, or one that is shown, mostly where there is one.
    fn draft_seed(&mut self, peer: Peer) {
        if self.random.chance(50) {
            let Phase { attach, large, .. } = self.phase;
            let (nh, nb) = self.sizes(attach, large);
            self.start(0x07, peer);
            self.frame.extend([0, nh as u8]);
            self.frame.extend((nb as u16).to_be_bytes());
            return self.draft_contents(peer, nh, nb);
        }
        let seeded: Vec<Peer> = Peer::all().filter(|p| self.bus.has_seed(*p)).collect();
        let peer = match self.random.pick(&seeded) {
            Some(peer) if !self.random.chance(3) => peer,
            _ => peer,
        };
        let room = self.room();
        self.start(0x0c, peer);
        self.frame.extend(room.to_be_bytes());
    }

    /// A receiver's room: mostly more than enough.
    fn room(&mut self) -> u16 {
        let room = match self.random.below(10) {
            0 => self.random.below(100),
            1 => self.random.below(MAX_PAYLOAD + 8 * MAX_ATTACHED + 1),
            _ => 0xffff,
        };
        room as u16
    }

    fn draft_receive(&mut self) {
        let waiting: Vec<Peer> = Peer::all()
            .filter(|peer| self.bus.queued(*peer) > 0)
            .collect();
        let peer = match self.random.pick(&waiting) {
            Some(peer) if !self.random.chance(2) => peer,
            _ => self.peer(),
        };
        let room = self.room();
        self.start(0x08, peer);
        self.frame.extend(room.to_be_bytes());
    }

    fn draft_question(&mut self, peer: Peer) {
        if self.random.chance(50) {
            let peer = if self.random.chance(50) {
                self.focus
            } else {
                peer
            };
            let user = self.random.below(4) as u8;
            self.start(0x09, peer);
            self.frame.push(user);
        } else {
            let id = self.held(peer, |view| view.owner == peer);
            self.with_id(0x0a, peer, id);
        }
    }

    /// A draft with something changed in its bytes or in its digits.
    fn malformed_line(&mut self, out: &mut Vec<u8>) {
        self.draft();
        if self.random.chance(60) {
            self.mutate_frame();
        }
        if self.frame.len() == 2 && self.frame[0] == 0x02 && !self.random.chance(3) {
            // Peers that are gone do not come back.
            self.frame.push(0);
        }
        let mut line = Vec::new();
        hex(&self.frame, &mut line);
        if self.random.chance(40) {
            self.mutate_line(&mut line);
        }
        // Run what the line spells, as the line program would.
        if let Some(frame) = unhex(&line) {
            self.frame = frame;
            self.run();
        }
        out.extend(line);
        out.push(b'\n');
    }

    fn mutate_frame(&mut self) {
        let len = self.frame.len();
        let random = &mut self.random;
        match random.below(12) {
            0 => self.frame.truncate(random.below(len + 1)),
            1 => {
                for _ in 0..1 + random.below(9) {
                    self.frame.push(random.draw() as u8);
                }
            }
            2 | 3 => self.frame[random.below(len)] = random.draw() as u8,
            4 => self.frame[random.below(len)] ^= 1 << random.below(8),
            5 => self.frame[0] = random.below(14) as u8,
            6 => self.frame[1] = random.below(12) as u8,
            7 => self.frame[len - 1] = random.below(10) as u8,
            8 => {
                // Another command over the same operands.
                let lengths = [3, 2, 10, 10, 10, 11, 6, 4, 3, 10, 6, 4];
                let command = random.below(lengths.len());
                self.frame[0] = 1 + command as u8;
                self.frame.resize(lengths[command], 0);
            }
            9 | 10 => {
                // A send or a seed with a number at or over its limit,
                // sometimes of the length it asks for.
                let peer = random.below(10) as u8;
                let nd = if random.chance(30) {
                    0
                } else {
                    random.below(11)
                } as u8;
                let nh = random.below(11) as u8;
                let nb = [0, 1, 511, 512, 513, 0xffff][random.below(6)] as u16;
                self.frame.clear();
                self.frame.extend([0x07, peer, nd, nh]);
                self.frame.extend(nb.to_be_bytes());
                if random.chance(60) {
                    let long = 6 + 8 * (usize::from(nd) + usize::from(nh)) + usize::from(nb);
                    let fill = random.draw() as u8;
                    self.frame.resize(long.min(700), fill);
                }
                if random.chance(20) {
                    self.frame.truncate(random.below(7));
                }
            }
            _ => self.frame.clear(),
        }
    }

    fn mutate_line(&mut self, line: &mut Vec<u8>) {
        let random = &mut self.random;
        match random.below(8) {
            0 => {
                line.pop();
            }
            1 => line.push(b'0' + random.below(10) as u8),
            2 => line.push(b'\r'),
            3 => line.make_ascii_uppercase(),
            4 => {
                let bad = [
                    b' ', 0, b'g', b'/', b':', b'`', b'A', b'F', b'x', 0xff, b'\t',
                ];
                let bad = bad[random.below(bad.len())];
                let at = random.below(line.len() + 1);
                if random.chance(50) || at == line.len() {
                    line.insert(at, bad);
                } else {
                    line[at] = bad;
                }
            }
            5 => {
                // Near the longest line, or far over it.
                let len = match random.below(8) {
                    0 => MAX_DIGITS - 2 + random.below(6),
                    1 => 5000 + random.below(100_000),
                    _ => MAX_DIGITS + random.below(4),
                };
                line.resize(len, b'0');
            }
            6 => line.clear(),
            _ => line.insert(0, b' '),
        }
    }
}

fn hex(bytes: &[u8], out: &mut Vec<u8>) {
    for byte in bytes {
        out.extend(format!("{byte:02x}").bytes());
    }
}

/// The frame of a good line. Written apart from the line program's reader.
fn unhex(line: &[u8]) -> Option<Vec<u8>> {
    let good = |c: &u8| c.is_ascii_digit() || (b'a'..=b'f').contains(c);
    if !line.len().is_multiple_of(2) || line.len() > MAX_DIGITS || !line.iter().all(good) {
        return None;
    }
    let text = std::str::from_utf8(line).ok()?;
    (0..line.len())
        .step_by(2)
        .map(|at| u8::from_str_radix(&text[at..at + 2], 16).ok())
        .collect()
}

//! Frames to commands. Only the form is tested here: ENOTTY, EINVAL, EMSGSIZE.

use crate::ids::{HandleId, Peer, User};
use crate::refusal::Refusal;

/// Destinations of one send, at most.
pub const MAX_DESTINATIONS: usize = 8;
/// Attached handles of one send, at most.
pub const MAX_ATTACHED: usize = 8;
/// Payload bytes of one send, at most.
pub const MAX_PAYLOAD: usize = 512;
/// Bytes of the longest frame that is not refused.
pub const MAX_FRAME: usize = 6 + 8 * (MAX_DESTINATIONS + MAX_ATTACHED) + MAX_PAYLOAD;

/// A command with its operands; those of a send stay in the caller's frame.
#[derive(Clone, Copy, PartialEq, Eq, Debug)]
pub(crate) enum Command<'a> {
    /// 01: open the peer for a user.
    Open { peer: Peer, user: User },
    /// 02: disconnect the peer.
    Disconnect { peer: Peer },
    /// 03: create a node under a chosen ID.
    Create { peer: Peer, id: HandleId },
    /// 04: destroy a node.
    Destroy { peer: Peer, id: HandleId },
    /// 05: release one reference.
    Release { peer: Peer, id: HandleId },
    /// 06: give a handle to another peer.
    Transfer { peer: Peer, id: HandleId, to: Peer },
    /// 07: send one message to each destination; with none, set the seed.
    Send(Send<'a>),
    /// 08: receive, with room for so many bytes.
    Receive { peer: Peer, room: u16 },
    /// 09: the quota question.
    Quota { peer: Peer, user: User },
    /// 0a: the holders question.
    Holders { peer: Peer, id: HandleId },
    /// 0c: show the seed, with room for so many bytes.
    ShowSeed { peer: Peer, room: u16 },
}

/// The operands of a send.
#[derive(Clone, Copy, PartialEq, Eq, Debug)]
pub(crate) struct Send<'a> {
    /// The sender.
    pub(crate) peer: Peer,
    /// 0 to 8 destinations, as the sender's IDs; 0 in a seed.
    pub(crate) destinations: Ids<'a>,
    /// 0 to 8 attached handles, as the sender's IDs.
    pub(crate) attached: Ids<'a>,
    /// 0 to 512 bytes, a part of the frame.
    pub(crate) payload: &'a [u8],
}

/// A list of IDs within a frame.
#[derive(Clone, Copy, PartialEq, Eq, Debug)]
pub(crate) struct Ids<'a>(&'a [[u8; 8]]);

impl Ids<'_> {
    /// How many there are.
    pub(crate) fn count(&self) -> usize {
        self.0.len()
    }

    /// Each ID in turn.
    #[inline]
    pub(crate) fn iter(&self) -> impl Iterator<Item = HandleId> + '_ {
        self.0.iter().map(|bytes| HandleId::from_bytes(*bytes))
    }
}

fn fields<const N: usize>(rest: &[u8]) -> Result<&[u8; N], Refusal> {
    rest.try_into().map_err(|_| Refusal::Invalid)
}

fn peer(number: u8) -> Result<Peer, Refusal> {
    Peer::new(number).ok_or(Refusal::Invalid)
}

fn user(number: u8) -> Result<User, Refusal> {
    User::new(number).ok_or(Refusal::Invalid)
}

fn peer_and_room(rest: &[u8]) -> Result<(Peer, u16), Refusal> {
    let [acting, room @ ..] = fields::<3>(rest)?;
    Ok((peer(*acting)?, u16::from_be_bytes(*room)))
}

fn peer_and_id(rest: &[u8]) -> Result<(Peer, HandleId), Refusal> {
    let [acting, id @ ..] = fields::<9>(rest)?;
    Ok((peer(*acting)?, HandleId::from_bytes(*id)))
}

impl<'a> Command<'a> {
    /// Reads a frame.
    #[inline]
    pub(crate) fn parse(frame: &'a [u8]) -> Result<Command<'a>, Refusal> {
        let (&command, rest) = frame.split_first().ok_or(Refusal::Invalid)?;
        Ok(match command {
            0x01 => {
                let [acting, for_user] = fields::<2>(rest)?;
                Command::Open {
                    peer: peer(*acting)?,
                    user: user(*for_user)?,
                }
            }
            0x02 => {
                let [acting] = fields::<1>(rest)?;
                Command::Disconnect {
                    peer: peer(*acting)?,
                }
            }
            0x03 => {
                let (peer, id) = peer_and_id(rest)?;
                if !id.can_be_chosen() {
                    return Err(Refusal::Invalid);
                }
                Command::Create { peer, id }
            }
            0x04 => {
                let (peer, id) = peer_and_id(rest)?;
                Command::Destroy { peer, id }
            }
            0x05 => {
                let (peer, id) = peer_and_id(rest)?;
                Command::Release { peer, id }
            }
            0x06 => {
                let [before @ .., to] = fields::<10>(rest)?;
                let (acting, id) = peer_and_id(before)?;
                Command::Transfer {
                    peer: acting,
                    id,
                    to: peer(*to)?,
                }
            }
            0x07 => Command::Send(Send::parse(rest)?),
            0x08 => {
                let (peer, room) = peer_and_room(rest)?;
                Command::Receive { peer, room }
            }
            0x09 => {
                let [acting, of_user] = fields::<2>(rest)?;
                Command::Quota {
                    peer: peer(*acting)?,
                    user: user(*of_user)?,
                }
            }
            0x0a => {
                let (peer, id) = peer_and_id(rest)?;
                Command::Holders { peer, id }
            }
            0x0c => {
                let (peer, room) = peer_and_room(rest)?;
                Command::ShowSeed { peer, room }
            }
            _ => return Err(Refusal::UnknownCommand),
        })
    }
}

impl<'a> Send<'a> {
    /// Reads what follows the command byte. Order: under 6 bytes, peer, sizes,
    /// length. nd 0 is a seed (document 02, No. 1), of the same sizes.
    #[inline]
    fn parse(rest: &'a [u8]) -> Result<Send<'a>, Refusal> {
        let ([acting, nd, nh, nb @ ..], body) =
            rest.split_first_chunk::<5>().ok_or(Refusal::Invalid)?;
        let peer = peer(*acting)?;
        let (nd, nh) = (usize::from(*nd), usize::from(*nh));
        let nb = usize::from(u16::from_be_bytes(*nb));
        if nd > MAX_DESTINATIONS || nh > MAX_ATTACHED || nb > MAX_PAYLOAD {
            return Err(Refusal::TooLarge);
        }
        if body.len() != 8 * (nd + nh) + nb {
            return Err(Refusal::Invalid);
        }
        let (ids, payload) = body.split_at(8 * (nd + nh));
        let (destinations, attached) = ids.as_chunks::<8>().0.split_at(nd);
        Ok(Send {
            peer,
            destinations: Ids(destinations),
            attached: Ids(attached),
            payload,
        })
    }
}

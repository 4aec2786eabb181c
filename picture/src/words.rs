//! Messages in the words of a store (RULES 11.12, 11.13): what the panel's calls do not show.

use gondzselu::Store;

/// The four kinds of message (RULES 11.13).
#[derive(Clone, Copy, Debug, PartialEq, Eq)]
pub enum Kind {
    Read,
    Update,
    ReadReply,
    UpdateReply,
}

/// A message as it lies in two words.
#[derive(Clone, Copy, Debug, PartialEq, Eq)]
pub struct Packet {
    pub kind: Kind,
    pub task: u8,
    pub register: u8,
    /// The destinations, as a set.
    pub to: u8,
    /// The operand of an update, or the value of a reply.
    pub value: u32,
}

impl Packet {
    /// None where the word has no kind, as where nothing is in flight.
    fn of(words: &[u32]) -> Option<Packet> {
        let word = words[0];
        let kind = match word % 8 {
            1 => Kind::Read,
            2 => Kind::Update,
            3 => Kind::ReadReply,
            4 => Kind::UpdateReply,
            _ => return None,
        };
        Some(Packet {
            kind,
            task: (word / 8 % 16) as u8,
            register: (word / 128 % 32) as u8,
            to: (word / 32_768) as u8,
            value: words[1],
        })
    }
}

/// The messages of a queue: the place where it starts, how many there are, and its places, of two
/// words each, with the first after the last.
fn queue([start, count]: [u32; 2], places: &[u32]) -> impl Iterator<Item = Option<Packet>> + '_ {
    let start = start as usize;
    (start..start + count as usize).map(|place| Packet::of(&places[place * 2 % places.len()..]))
}

/// A card's outbox, the first message first.
pub fn outbox(store: &Store, card: u8) -> impl Iterator<Item = Option<Packet>> + '_ {
    let words = &store.words().0[321 + 34 * usize::from(card)..];
    queue([words[0], words[1]], &words[2..][..2 * 16])
}

/// A card's inbox, the first message first.
pub fn inbox(store: &Store, card: u8) -> impl Iterator<Item = Option<Packet>> + '_ {
    let words = &store.words().1[4 + 148 * usize::from(card)..];
    queue([words[1], words[2]], &words[4..][..2 * 48])
}

/// A message and its tag, in three words.
fn tagged(words: &[u32]) -> Option<(Packet, u32)> {
    Packet::of(words).map(|packet| (packet, words[2]))
}

/// The messages held at a card with their tags, in order of arrival.
pub fn held(store: &Store, card: u8) -> impl Iterator<Item = Option<(Packet, u32)>> + '_ {
    let words = &store.words().1[4 + 148 * usize::from(card)..];
    (0..words[3] as usize).map(|place| tagged(&words[100 + 3 * place..]))
}

/// A task's message in flight, with its tag.
pub fn in_flight(store: &Store, task: u8) -> Option<(Packet, u32)> {
    tagged(&store.words().1[1_188 + 3 * usize::from(task)..])
}

//! A log of a register and its total (RULES 16): tasks on three cards add to it by function 5, and
//! the total of what its primary has applied is the value of the primary's copy. Cards 0 and 1 hold
//! a copy, and card 0 is the primary; card 2 holds none, and its task's updates are in the log too.
//! Who picks the steps knows which update the primary delivers: broadcasts are applied in the order
//! of their dispatch.
//!
//!   cargo run --offline --example totals

use std::error::Error;
use std::io::{self, Write};

use gondzselu::{total, total_by_card, Function, Placement, Refusal, Step, Store};

const CARDS: u8 = 3;
/// Task t lives on card t.
const TASKS: u8 = CARDS;
const ROUNDS: u8 = 2;
const PRIMARY: u8 = 0;

const PLACE: Placement<'_> = Placement {
    cards: CARDS,
    homes: &[0, 1, 2],
    copies: &[0b011],
    primaries: &[PRIMARY],
};

struct Panel {
    store: Store,
    /// The operand of each task's update.
    asked: [u32; TASKS as usize],
    /// An entry for each broadcast; the first so many are applied, and those are the log.
    cards: Vec<u8>,
    operands: Vec<u32>,
    applied: usize,
}

impl Panel {
    /// Whether the step is taken. A refusal other than the one that says that nothing is there to
    /// be moved is an error.
    fn moves(&mut self, step: Step, nothing: Refusal) -> Result<bool, Refusal> {
        match self.store.step(step) {
            Ok(_) => Ok(true),
            Err(refusal) if refusal == nothing => Ok(false),
            Err(refusal) => Err(refusal),
        }
    }

    /// Sends the card's next message: its task's update, if that makes a broadcast; or a reply.
    fn dispatch(&mut self, card: u8) -> Result<bool, Refusal> {
        let made = self.store.broadcasts();
        let moved = self.moves(Step::Dispatch { card }, Refusal::OutboxEmpty)?;
        if self.store.broadcasts() > made {
            self.cards.push(card);
            self.operands.push(self.asked[usize::from(card)]);
        }
        Ok(moved)
    }

    /// Delivers on the card. On the primary that is the next entry: it takes only broadcasts here.
    fn deliver(&mut self, card: u8, out: &mut impl Write) -> Result<bool, Box<dyn Error>> {
        let moved = self.moves(Step::Deliver { card }, Refusal::InboxEmpty)?;
        if !moved || card != PRIMARY {
            return Ok(moved);
        }
        let last = self.applied;
        self.applied += 1;
        let (cards, operands) = (&self.cards[..=last], &self.operands[..=last]);
        let (plain, by_card) = (total(cards, operands)?, total_by_card(cards, operands)?);
        let copy = self.store.copy(PRIMARY, 0);
        if plain != copy || by_card != copy {
            return Err("a total that is not the copy's value".into());
        }
        write!(out, "card {} adds {}: ", cards[last], operands[last])?;
        writeln!(out, "total {plain}, by card {by_card}, copy {copy}")?;
        Ok(moved)
    }

    /// The cards take turns, from this one on, until nothing moves.
    fn settle(&mut self, first: u8, out: &mut impl Write) -> Result<(), Box<dyn Error>> {
        let mut moved = true;
        while moved {
            moved = false;
            for card in (first..first + CARDS).map(|card| card % CARDS) {
                moved |= self.dispatch(card)?;
                moved |= self.moves(Step::TakeBroadcast { card }, Refusal::NoBroadcast)?;
                moved |= self.deliver(card, out)?;
            }
            for task in 0..TASKS {
                moved |= self.moves(Step::TakeSingle { task }, Refusal::NothingInFlight)?;
            }
        }
        Ok(())
    }
}

fn main() -> Result<(), Box<dyn Error>> {
    let mut panel = Panel {
        store: Store::start(PLACE)?,
        asked: [0; TASKS as usize],
        cards: Vec::new(),
        operands: Vec::new(),
        applied: 0,
    };
    let mut out = io::stdout().lock();
    for round in 0..ROUNDS {
        for task in 0..TASKS {
            // The last ones pass the top.
            let operand = 250_000_000 * u32::from(round + 1) * u32::from(task + 1);
            panel.asked[usize::from(task)] = operand;
            panel.store.step(Step::RequestUpdate {
                task,
                register: 0,
                function: Function::AddComesRound,
                operand,
            })?;
            panel.store.step(Step::SendUpdate { task })?;
        }
        panel.settle(round, &mut out)?;
        for task in 0..TASKS {
            panel.store.step(Step::Report { task })?;
        }
    }
    let (cards, operands) = (&panel.cards, &panel.operands[1..]);
    match (total(cards, operands), total_by_card(cards, operands)) {
        (Err(refusal), Err(other)) if other == refusal => {
            write!(out, "{} cards and {} operands", cards.len(), operands.len())?;
            writeln!(out, ": refused with {}", refusal.number())?;
        }
        _ => return Err("unequal lists are not refused alike".into()),
    }
    Ok(out.flush()?)
}

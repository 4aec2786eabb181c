//! The named runs on several cards: K9 to K12, two held messages of one tag, and numbers handed out.

use super::{gives, held, refused, taken, told, Named, Told};
use crate::model::placement::Placement;
use crate::steps::*;

/// A task on each card; register 0 everywhere, register 1 on card 1 (RULES 3.5).
fn three_cards() -> Placement {
    Placement::new(3, &[0, 1, 2], &[(0b111, 0), (0b010, 1)])
}

/// How K9, K10 and the run of two held messages begin: task 2 sets register 0 to 7, which is
/// broadcast 1; these cards take it and deliver it.
fn broadcast_one(cards: &[u8]) -> Vec<Told> {
    let mut steps = vec![set(2, 0, 7), send_update(2), dispatch(2)];
    for &card in cards {
        steps.extend([take_broadcast(card), deliver(card)]);
    }
    steps.into_iter().map(taken).collect()
}

/// A task sets register 1, and its message is in flight to card 1.
fn set_on_card_one(task: u8, value: u32) -> [Told; 3] {
    // The home of each task has the task's number.
    [set(task, 1, value), send_update(task), dispatch(task)].map(taken)
}

pub fn k9() -> Named {
    let mut steps = broadcast_one(&[0]);
    steps.extend([
        // Task 0 reads 7.
        taken(request_read(0, 0)),
        taken(perform(0)),
        gives(report(0), 7),
    ]);
    // So its update of register 1 has tag 1 (RULES 6.3).
    steps.extend(set_on_card_one(0, 9));
    steps.extend([
        // It reaches card 1 first and is held there (5.8): nothing is there to deliver.
        held(take_single(0)),
        refused(deliver(1), 33),
        // It joins behind broadcast 1 (6.5): the copies become 7, then 9.
        taken(take_broadcast(1)),
        taken(deliver(1)),
        taken(deliver(1)),
    ]);
    told("K9", three_cards(), &steps)
}

pub fn k10() -> Named {
    let mut steps = broadcast_one(&[1]);
    steps.extend([
        // Task 0 reads register 1, of which card 0 has no copy; card 1 replies, with tag 1.
        taken(request_read(0, 1)),
        taken(send_read(0, 1)),
        taken(dispatch(0)),
        taken(take_single(0)),
        taken(deliver(1)),
        taken(dispatch(1)),
        // The reply is held at card 0: nothing is there to deliver, and task 0 is not done.
        held(take_single(0)),
        refused(deliver(0), 33),
        refused(report(0), 21),
        // Card 0 takes broadcast 1: that comes first, then the reply.
        taken(take_broadcast(0)),
        taken(deliver(0)),
        refused(report(0), 21),
        taken(deliver(0)),
        taken(report(0)),
    ]);
    told("K10", three_cards(), &steps)
}

/// Numbers handed out (RULES 13.4): the register lies on cards 0 and 1, and card 0 is its primary.
pub fn tickets() -> Named {
    let mut steps: Vec<_> = [set(0, 0, 7), send_update(0), dispatch(0)]
        .map(taken)
        .into();
    steps.extend([
        // Home applies it, and found 0.
        taken(take_broadcast(0)),
        taken(deliver(0)),
        gives(report(0), 0),
    ]);
    steps.extend([request_update(2, 0, 2, 1), send_update(2), dispatch(2)].map(taken));
    // The primary found 7, and its reply waits in the outbox.
    steps.extend([take_broadcast(0), deliver(0)].map(taken));
    steps.extend([request_update(1, 0, 5, 1), send_update(1), dispatch(1)].map(taken));
    for _ in 0..3 {
        steps.extend([take_broadcast(1), deliver(1)].map(taken));
    }
    steps.extend([
        // Home, which is not the primary, found 8.
        gives(report(1), 8),
        taken(dispatch(0)),
        // The reply has tag 2, and card 2 has taken nothing.
        held(take_single(2)),
        taken(take_broadcast(2)),
        taken(take_broadcast(2)),
        taken(deliver(2)),
        gives(report(2), 7),
    ]);
    let placement = Placement::new(3, &[0, 1, 2], &[(0b011, 0)]);
    told("tickets", placement, &steps)
}

/// Two messages of one tag join in order of arrival (RULES 6.5): task 2's was sent last and
/// reaches card 1 first, so the last value there is task 0's.
pub fn two_held() -> Named {
    let mut steps = broadcast_one(&[0, 2]);
    steps.push(taken(report(2)));
    // Both have tag 1.
    steps.extend(set_on_card_one(0, 9));
    steps.extend(set_on_card_one(2, 4));
    steps.extend([
        // Both are held at card 1.
        held(take_single(2)),
        held(take_single(0)),
        // Card 1 takes broadcast 1 and delivers all three.
        taken(take_broadcast(1)),
        taken(deliver(1)),
        taken(deliver(1)),
        taken(deliver(1)),
        // Task 1 reads what came last.
        taken(request_read(1, 1)),
        taken(perform(1)),
        gives(report(1), 9),
    ]);
    told("two-held", three_cards(), &steps)
}

/// Two cards with a copy each and a task on card 0.
fn two_cards() -> Placement {
    Placement::new(2, &[0], &[(0b11, 0)])
}

/// Task 0's update, which card 0 dispatches: the next broadcast.
fn broadcast(number: u32) -> [Told; 3] {
    [set(0, 0, number), send_update(0), dispatch(0)].map(taken)
}

/// Card 0 takes and delivers the broadcast, and task 0 reports that it found the number before.
fn at_home(number: u32) -> [Told; 3] {
    [
        taken(take_broadcast(0)),
        taken(deliver(0)),
        gives(report(0), number - 1),
    ]
}

/// Card 1 takes nothing: broadcast 24 passes, 25 gives 34 (RULES 7.5).
pub fn k11() -> Named {
    let mut steps = Vec::new();
    for number in 1..=24 {
        steps.extend(broadcast(number));
        steps.extend(at_home(number));
    }
    steps.push(taken(set(0, 0, 25)));
    steps.push(taken(send_update(0)));
    steps.push(refused(dispatch(0), 34));
    told("K11", two_cards(), &steps)
}

/// Both cards take each broadcast as it comes, and card 1 delivers nothing: its take 32 passes, 33
/// gives 35 (RULES 7.6).
pub fn k12() -> Named {
    let mut steps = Vec::new();
    for number in 1..=33 {
        steps.extend(broadcast(number));
        steps.extend(at_home(number));
        steps.push(match number {
            33 => refused(take_broadcast(1), 35),
            _ => taken(take_broadcast(1)),
        });
    }
    told("K12", two_cards(), &steps)
}

#[cfg(test)]
mod tests {
    use super::*;
    use crate::model::files::Run;
    use crate::model::State;

    /// The state after so many steps of a named run.
    fn after(run: Named, steps: usize) -> State {
        let run = Run::read(&run.file).unwrap();
        let mut state = State::start(run.placement).unwrap();
        for &(code, argument) in &run.steps[..steps] {
            state.step(code, argument);
        }
        state
    }

    #[test]
    fn k9_inside() {
        assert_eq!(after(k9(), 11).channel.flight[0].unwrap().tag, 1);
        assert_eq!(after(k9(), 12).channel.held[1].len(), 1);
        let copies = |steps| {
            let state = after(k9(), steps);
            [0, 1].map(|register| state.copy(1, register))
        };
        assert_eq!(copies(14), [0, 0]);
        assert_eq!(copies(15), [7, 0]);
        assert_eq!(copies(16), [7, 9]);
        // The home of task 0 holds no copy of register 1: card 1 replies.
        assert_eq!(after(k9(), 16).channel.outbox[1].len(), 1);
    }

    #[test]
    fn k10_inside() {
        assert_eq!(after(k10(), 11).channel.flight[0].unwrap().tag, 1);
        assert_eq!(after(k10(), 12).channel.held[0].len(), 1);
        assert_eq!(after(k10(), 15).channel.held[0].len(), 0);
        assert_eq!(after(k10(), 15).channel.inbox[0].len(), 2);
    }

    /// No card is more than one behind.
    #[test]
    fn k12_inside() {
        for steps in 0..=231 {
            let channel = after(k12(), steps).channel;
            let mut taken = channel.taken.iter();
            assert!(taken.all(|taken| channel.made - taken <= 1));
        }
        let end = after(k12(), 231).channel;
        assert_eq!((end.made, end.taken), (33, vec![33, 32]));
    }
}

//! Refusals 20 to 35, and 6 for the outcome (RULES 8.2, 8.8): the state is only looked at.

use super::step::Step;
use super::{has, only, Refusal, Request, State, Task, REQUESTS};

impl State {
    /// Refusals 20 to 35, then 6 for the outcome.
    pub(super) fn judge(&self, step: Step) -> Result<(), Refusal> {
        match step {
            Step::RequestRead { task, .. } | Step::RequestUpdate { task, .. } => {
                if self.tasks[task] != Task::Quiet {
                    return Err(20);
                }
                if self.requests == REQUESTS {
                    return Err(23);
                }
                Ok(())
            }
            Step::Perform { task } => {
                let Task::Asking(request) = self.tasks[task] else {
                    return Err(21);
                };
                let home = self.home(task);
                // RULES 5.3.
                let fits = match request {
                    Request::Read { register } => has(self.holders(register), home),
                    Request::Update { register, .. } => self.holders(register) == only(home),
                };
                if fits {
                    Ok(())
                } else {
                    Err(22)
                }
            }
            Step::SendRead { task, chosen } => {
                let Task::Asking(Request::Read { register }) = self.tasks[task] else {
                    return Err(21);
                };
                let home = self.home(task);
                let holders = self.holders(register);
                // RULES 5.4.
                if has(holders, home) || !has(holders, chosen) {
                    return Err(22);
                }
                self.channel.may_send(home, only(chosen))
            }
            Step::SendUpdate { task } => {
                let Task::Asking(Request::Update { register, .. }) = self.tasks[task] else {
                    return Err(21);
                };
                let home = self.home(task);
                let holders = self.holders(register);
                // RULES 5.5.
                if holders == only(home) {
                    return Err(22);
                }
                self.channel.may_send(home, holders)
            }
            Step::Dispatch { card } => self.channel.may_dispatch(card),
            Step::TakeBroadcast { card } => self.channel.may_take_broadcast(card),
            Step::TakeSingle { task } => self.channel.may_take_single(task),
            Step::Deliver { card } => {
                let message = self.channel.inbox[card].front().ok_or(33)?;
                match self.reply(card, message) {
                    Some(reply) => self.channel.may_send(card, reply.to),
                    None => Ok(()),
                }
            }
            Step::Report { task } => match self.tasks[task] {
                Task::Done(_) => Ok(()),
                _ => Err(21),
            },
        }
    }
}

#[cfg(test)]
mod tests {
    use super::super::channel::{Body, Message, OUTBOX};
    use super::super::placement::Placement;
    use super::super::Value;
    use super::*;

    const READ: Request = Request::Read { register: 0 };
    const UPDATE: Request = Request::Update {
        register: 0,
        function: 1,
        operand: 7,
    };

    /// Two cards and a task on card 0 that asks for a register with these holders.
    fn asking(holders: u8, request: Request) -> State {
        let primary = holders.trailing_zeros() as u8;
        let placement = Placement::new(2, &[0], &[(holders, primary)]);
        let mut state = State::start(placement).unwrap();
        state.tasks[0] = Task::Asking(request);
        state
    }

    fn result(state: &State, code: u8, argument: [u8; 8]) -> u8 {
        state.clone().step(code, argument).0
    }

    /// By holders: the results of 3, 4 to card 0, 4 to card 1, and 5.
    #[test]
    fn how_copies_lie() {
        let results = |holders: u8, request: Request| {
            let state = asking(holders, request);
            [(3, 0), (4, 0), (4, 1), (5, 0)]
                .map(|(code, chosen)| result(&state, code, [0, chosen, 0, 0, 0, 0, 0, 0]))
        };
        assert_eq!(results(0b01, READ), [0, 22, 22, 21]);
        assert_eq!(results(0b10, READ), [22, 22, 0, 21]);
        assert_eq!(results(0b11, READ), [0, 22, 22, 21]);
        assert_eq!(results(0b01, UPDATE), [0, 21, 21, 22]);
        assert_eq!(results(0b10, UPDATE), [22, 21, 21, 0]);
        assert_eq!(results(0b11, UPDATE), [22, 21, 21, 0]);
    }

    #[test]
    fn tasks_in_other_states() {
        let mut state = asking(1, READ);
        state.requests = REQUESTS;
        assert_eq!(result(&state, 1, [0; 8]), 20, "20 before 23");
        assert_eq!(result(&state, 10, [0; 8]), 21);
        let done = [Value::Found(7), Value::Read(7)].map(Task::Done);
        for task in [Task::Quiet, Task::Waiting].into_iter().chain(done) {
            state.tasks[0] = task;
            for code in [3, 4, 5] {
                assert_eq!(result(&state, code, [0; 8]), 21);
            }
        }
        assert_eq!(state.step(10, [0; 8]), (0, 7));
        assert_eq!(state.step(1, [0; 8]), (23, 0));
    }

    #[test]
    fn outcome_six() {
        let body = Body::Request(READ);
        let message = |to: u8| Message { task: 0, to, body };
        let full = |mut state: State, card: usize| {
            state.channel.outbox[card] = vec![message(2); OUTBOX].into();
            state
        };
        assert_eq!(result(&full(asking(1, UPDATE), 0), 5, [0; 8]), 22);
        assert_eq!(result(&full(asking(2, UPDATE), 0), 5, [0; 8]), 6);
        let chosen = [0, 1, 0, 0, 0, 0, 0, 0];
        assert_eq!(result(&full(asking(2, READ), 0), 4, chosen), 6);
        let mut nobody = asking(1, UPDATE);
        nobody.placement.registers[0].holders = 0;
        assert_eq!(result(&nobody, 5, [0; 8]), 6, "a message to nobody");

        // A delivery that replies needs room in the outbox; the message stays.
        let mut state = full(asking(2, READ), 1);
        let card = [1, 0, 0, 0, 0, 0, 0, 0];
        assert_eq!(result(&state, 9, card), 33);
        state.channel.inbox[1].push_back(message(2));
        assert_eq!(result(&state, 9, card), 6);
        state.channel.inbox[1][0].body = Body::Request(UPDATE);
        assert_eq!(result(&state, 9, card), 6);
        for value in [Value::Read(7), Value::Found(7)] {
            state.channel.inbox[1][0].body = Body::Reply { value };
            assert_eq!(result(&state, 9, card), 0);
        }
    }
}

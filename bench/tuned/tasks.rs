//! The steps of a task: requests, what it performs or sends, its report (RULES 5.1 to 5.5, 5.10).

use crate::word::*;
use crate::{refused, Answer, Store, MOST, OUTBOX, TAKEN};

impl Store {
    /// Codes 1 and 2.
    pub(crate) fn request(&mut self, kind: u32, argument: u64) -> Answer {
        let unnamed = if kind == READ { !0xFFFF } else { 0xFF00_0000 };
        if argument & unnamed != 0 {
            return refused(11);
        }
        let [task, register, function] = [0, 8, 16].map(|at| (argument >> at) as u32 & 0xFF);
        if task >= self.tasks {
            return refused(12);
        }
        if register >= self.registers {
            return refused(13);
        }
        if kind == UPDATE && !(1..=5).contains(&function) {
            return refused(15);
        }
        let task = task as usize & 15;
        let doing = self.task[task];
        if lowest(doing) != QUIET {
            return refused(20);
        }
        if self.requests >= MOST {
            return refused(23);
        }
        self.requests += 1;
        let asked = register << ASKED | function << ASKED_FUNCTION;
        self.task[task] = doing >> HOME << HOME | asked | kind;
        self.value[task] = (argument >> 32) as u32;
        TAKEN
    }

    pub(crate) fn perform(&mut self, task: usize) -> Answer {
        let doing = self.task[task];
        let (home, register) = (home(doing), asked(doing));
        let holders = self.register[register] >> HOLDERS;
        let copy = &mut self.copies[home][register];
        let found = *copy;
        match lowest(doing) {
            READ => {
                if holders >> home & 1 == 0 {
                    return refused(22);
                }
                self.task[task] = with_condition(doing, DONE_READ);
            }
            UPDATE => {
                if holders != 1 << home {
                    return refused(22);
                }
                *copy = apply(doing >> ASKED_FUNCTION, found, self.value[task]);
                self.task[task] = with_condition(doing, DONE_UPDATE);
            }
            _ => return refused(21),
        }
        self.value[task] = found;
        TAKEN
    }

    pub(crate) fn send_read(&mut self, argument: u64) -> Answer {
        if argument > 0xFFFF {
            return refused(11);
        }
        let (task, chosen) = (argument as u32 & 0xFF, (argument >> 8) as u32);
        if task >= self.tasks {
            return refused(12);
        }
        if chosen >= self.cards {
            return refused(14);
        }
        let (task, chosen) = (task as usize & 15, chosen & 7);
        let doing = self.task[task];
        if lowest(doing) != READ {
            return refused(21);
        }
        let holders = self.register[asked(doing)] >> HOLDERS;
        if holders >> home(doing) & 1 == 1 || holders >> chosen & 1 == 0 {
            return refused(22);
        }
        self.send(task, doing, 1 << chosen)
    }

    pub(crate) fn send_update(&mut self, task: usize) -> Answer {
        let doing = self.task[task];
        if lowest(doing) != UPDATE {
            return refused(21);
        }
        let holders = self.register[asked(doing)] >> HOLDERS;
        if holders == 1 << home(doing) {
            return refused(22);
        }
        if holders == 0 {
            return refused(6);
        }
        self.send(task, doing, holders)
    }

    /// What the task asks for joins its home's outbox as a message. Register and function stand side
    /// by side in both words, so they move as one.
    fn send(&mut self, task: usize, doing: u32, to: u32) -> Answer {
        let card = home(doing);
        if self.outbox_count[card] as usize >= OUTBOX {
            return refused(6);
        }
        let asked = doing & ((1 << HOME) - (1 << ASKED));
        let word = to << TO | asked << (REGISTER - ASKED) | (task as u32) << TASK | lowest(doing);
        let value = self.value[task];
        self.join_outbox(card, Message { word, value });
        self.task[task] = with_condition(doing, WAITING);
        TAKEN
    }

    pub(crate) fn report(&mut self, task: usize) -> Answer {
        let doing = self.task[task];
        if !matches!(lowest(doing), DONE_READ | DONE_UPDATE) {
            return refused(21);
        }
        self.task[task] = with_condition(doing, QUIET);
        (0, self.value[task])
    }
}

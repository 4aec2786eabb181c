//! Deliver (RULES 5.9).

use crate::word::*;
use crate::{refused, Answer, Store, INBOX, OUTBOX, TAKEN};

impl Store {
    pub(crate) fn deliver(&mut self, card: usize) -> Answer {
        let count = self.inbox_count[card];
        if count == 0 {
            return refused(33);
        }
        let place = (self.inbox_head[card] as usize).min(INBOX - 1);
        let Message { word, value } = self.inbox[card][place];
        let (task, register) = (task(word), register(word));
        let doing = self.task[task];
        let home = home(doing);
        match lowest(word) {
            READ => {
                if self.outbox_count[card] as usize >= OUTBOX {
                    return refused(6);
                }
                self.reply(card, REPLY_READ, word, home, self.copies[card][register]);
            }
            UPDATE => {
                let placed = self.register[register];
                let far = placed >> HOLDERS >> home & 1 == 0;
                let found = self.copies[card][register];
                if far && lowest(placed) as usize == card {
                    if self.outbox_count[card] as usize >= OUTBOX {
                        return refused(6);
                    }
                    self.reply(card, REPLY_UPDATE, word, home, found);
                }
                self.copies[card][register] = apply(word >> FUNCTION, found, value);
                if home == card {
                    self.task[task] = with_condition(doing, DONE_UPDATE);
                    self.value[task] = found;
                }
            }
            REPLY_READ => {
                self.task[task] = with_condition(doing, DONE_READ);
                self.value[task] = value;
            }
            _ => {
                self.task[task] = with_condition(doing, DONE_UPDATE);
                self.value[task] = value;
            }
        }
        self.inbox_head[card] = if place == INBOX - 1 {
            0
        } else {
            place as u32 + 1
        };
        self.inbox_count[card] = count - 1;
        TAKEN
    }

    /// To the home of the task, with task and register of the message; into an outbox that is not full.
    fn reply(&mut self, card: usize, kind: u32, word: u32, home: usize, value: u32) {
        let named = word & ((1 << FUNCTION) - (1 << TASK));
        let word = 1 << TO << home | named | kind;
        self.join_outbox(card, Message { word, value });
    }
}

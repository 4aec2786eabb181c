// A million messages through the proved channel and through the same channel in plain Rust, timed in one run:
//   ./build channel_pace && rustc -O -o target/bench_channel bench/channel.rs && target/bench_channel target/bin/channel_pace
use std::collections::VecDeque;
use std::hint::black_box;
use std::process::Command;

// The last broadcasts that are kept: no card is further behind (RULES 7.5).
const BROADCASTS: usize = 24;

#[derive(Clone, Copy)]
#[allow(dead_code)]
enum Body {
    ReadDo,
    UpdateDo(u32, u32),
    ReadReply(u32),
    UpdateReply(u32),
}

#[derive(Clone, Copy)]
struct Message {
    task: u32,
    register: u32,
    body: Body,
}

#[derive(Clone, Copy)]
struct Letter {
    message: Message,
    to: u32,
    tag: u32,
}

#[derive(PartialEq)]
enum Answer {
    Done,
    Held,
    Refused(u8),
}

struct Channel {
    cards: usize,
    tasks: u32,
    registers: u32,
    made: u32,
    taken: [u32; 8],
    sent: [Option<Letter>; BROADCASTS],
    flight: [Option<Letter>; 16],
    held: [Vec<Letter>; 8],
    inbox: [VecDeque<Letter>; 8],
}

impl Channel {
    fn new(cards: usize, tasks: u32, registers: u32) -> Channel {
        Channel {
            cards,
            tasks,
            registers,
            made: 0,
            taken: [0; 8],
            sent: [None; BROADCASTS],
            flight: [None; 16],
            held: std::array::from_fn(|_| Vec::with_capacity(16)),
            inbox: std::array::from_fn(|_| VecDeque::with_capacity(48)),
        }
    }

    fn fits(&self, m: &Message, to: u32) -> bool {
        let known = match m.body {
            Body::UpdateDo(f, _) => (1..=4).contains(&f),
            _ => true,
        };
        m.task < self.tasks && m.register < self.registers && known && to != 0 && to >> self.cards == 0
    }

    #[inline(never)]
    fn dispatch(&mut self, card: usize, message: Message, to: u32) -> Answer {
        if card >= self.cards {
            return Answer::Refused(14);
        }
        if to.count_ones() > 1 {
            if self.taken[..self.cards].iter().any(|t| self.made + 1 > t + BROADCASTS as u32) {
                return Answer::Refused(34);
            }
            if !self.fits(&message, to) || self.made >= 65535 {
                return Answer::Refused(6);
            }
            self.made += 1;
            self.sent[self.made as usize % BROADCASTS] = Some(Letter { message, to, tag: self.made });
        } else {
            if !self.fits(&message, to) || self.flight[message.task as usize].is_some() {
                return Answer::Refused(6);
            }
            self.flight[message.task as usize] = Some(Letter { message, to, tag: self.taken[card] });
        }
        Answer::Done
    }

    #[inline(never)]
    fn take_broadcast(&mut self, card: usize) -> Answer {
        if card >= self.cards {
            return Answer::Refused(14);
        }
        if self.made <= self.taken[card] {
            return Answer::Refused(31);
        }
        let next = self.taken[card] + 1;
        let letter = self.sent[next as usize % BROADCASTS].unwrap();
        let there = letter.to >> card & 1 == 1;
        let inbox = &mut self.inbox[card];
        if there && inbox.iter().filter(|l| l.to.count_ones() > 1).count() >= 32 {
            return Answer::Refused(35);
        }
        let held = &mut self.held[card];
        let ready = held.iter().filter(|l| l.tag == next).count();
        if inbox.len() + ready + there as usize > 48 {
            return Answer::Refused(6);
        }
        self.taken[card] = next;
        if there {
            inbox.push_back(letter);
        }
        held.retain(|l| {
            if l.tag == next {
                inbox.push_back(*l);
            }
            l.tag != next
        });
        Answer::Done
    }

    #[inline(never)]
    fn take_single(&mut self, task: u32) -> Answer {
        if task >= self.tasks {
            return Answer::Refused(12);
        }
        let Some(letter) = self.flight[task as usize] else { return Answer::Refused(32) };
        let card = letter.to.trailing_zeros() as usize;
        let answer = if letter.tag <= self.taken[card] {
            if self.inbox[card].len() >= 48 {
                return Answer::Refused(6);
            }
            self.inbox[card].push_back(letter);
            Answer::Done
        } else {
            if self.held[card].len() >= 16 {
                return Answer::Refused(6);
            }
            self.held[card].push(letter);
            Answer::Held
        };
        self.flight[task as usize] = None;
        answer
    }

    #[inline(never)]
    fn receive(&mut self, card: usize) -> Option<Message> {
        if card >= self.cards {
            return None;
        }
        self.inbox[card].pop_front().map(|l| l.message)
    }
}

fn value(m: Option<Message>) -> u32 {
    match m.map(|m| m.body) {
        Some(Body::UpdateDo(_, v) | Body::ReadReply(v) | Body::UpdateReply(v)) => v,
        _ => 0,
    }
}

fn update(v: u32) -> Message {
    Message { task: 0, register: 1, body: Body::UpdateDo(2, v) }
}

fn plain() -> u32 {
    let mut sum: u32 = 0;
    for _ in 0..8 {
        let mut c = black_box(Channel::new(8, 16, 32));
        for i in 0..62500 {
            assert!(c.dispatch(0, update(i), 7) == Answer::Done);
            for card in 0..8 {
                assert!(c.take_broadcast(card) == Answer::Done);
            }
            for card in 0..3 {
                sum = sum.wrapping_add(value(c.receive(card)));
            }
            assert!(c.dispatch(1, update(i), 4) == Answer::Done);
            assert!(c.take_single(0) == Answer::Done);
            sum = sum.wrapping_add(value(c.receive(2)));
        }
    }
    sum
}

extern "C" {
    fn getrusage(who: i32, usage: *mut [i64; 18]) -> i32;
}

// Processor time in nanoseconds, of this process (0) or of its children that have ended (-1): what else the machine does hardly counts.
fn spent(who: i32) -> f64 {
    let mut usage = [0; 18];
    assert_eq!(unsafe { getrusage(who, &mut usage) }, 0);
    ((usage[0] + usage[2]) * 1_000_000 + usage[1] + usage[3]) as f64 * 1e3
}

fn main() {
    let program = std::env::args().nth(1).expect("the proved program's path");
    let calls = 8.0 * 62500.0 * 15.0;
    for _ in 0..5 {
        let begin = spent(0);
        let sum = black_box(plain());
        let rust = spent(0) - begin;
        let begin = spent(-1);
        let out = Command::new(&program).output().expect("the proved program runs");
        let proved = spent(-1) - begin;
        assert_eq!(String::from_utf8(out.stdout).unwrap().trim(), sum.to_string());
        println!("proved {:5.1} ns a call, plain Rust {:5.1} ns a call", proved / calls, rust / calls);
    }
}

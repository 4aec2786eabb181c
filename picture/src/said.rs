//! What a mark stands for, in words: titles, and the short labels beside marks.

use gondzselu::{sentence, Function, Step};

use crate::file::cards_of;
use crate::run::{Change, Effect, How, Id, Message, Number, Place, Played, Run, Taken};
use crate::words::Kind;

/// Numbers with a space between them.
pub fn list(numbers: impl IntoIterator<Item = impl ToString>) -> String {
    let numbers = numbers.into_iter().map(|number| number.to_string());
    numbers.collect::<Vec<_>>().join(" ")
}

/// A noun for one or several, and their numbers.
fn named(noun: &str, numbers: &[usize]) -> String {
    let several = if numbers.len() == 1 { "" } else { "s" };
    format!("{noun}{several} {}", list(numbers))
}

pub fn kind(kind: Kind) -> &'static str {
    match kind {
        Kind::Read => "read message",
        Kind::Update => "update message",
        Kind::ReadReply => "reply to a read",
        Kind::UpdateReply => "reply to an update",
    }
}

/// An operation: its number, its task, what it asks for.
pub fn operation(run: &Run, number: Number) -> String {
    let operation = &run.operations[number];
    let (task, register) = (operation.task, operation.register);
    match operation.update {
        None => format!("operation {number}: task {task} reads register {register}"),
        Some((function, operand)) => {
            format!(
                "operation {number}: task {task} updates register {register}, {function} {operand}"
            )
        }
    }
}

/// A step as it was asked for; its bytes where they are none.
pub fn asked(step: &Played) -> String {
    match Step::from_bytes(step.code, step.argument) {
        Ok(step) => step.to_string(),
        Err(_) => {
            let bytes = step.argument.map(|byte| format!("{byte:02x}"));
            format!("code {}, argument {}", step.code, bytes.join(" "))
        }
    }
}

/// The title of a step: what was asked, what came of it, and of which operation it is part; of a
/// refused step its sentence first.
pub fn step(run: &Run, place: Place) -> String {
    let step = &run.steps[place];
    let asked = asked(step);
    let taken = match &step.answer {
        Ok(taken) => taken,
        Err(refusal) => {
            return match sentence(place as u32, *refusal) {
                Some(words) => format!("{words}\n{asked}, refused with {}", refusal.number()),
                None => format!("step {place}: refused with {}\n{asked}", refusal.number()),
            }
        }
    };
    let effect = effect(run, place, taken);
    let operation = operation(run, taken.operation);
    format!("step {place}: {asked}\n{effect}\n{operation}")
}

fn effect(run: &Run, place: Place, taken: &Taken) -> String {
    let played = &run.steps[place];
    let task = played.argument[0];
    let card = played.card.unwrap_or(0);
    let operation = |id: Id| run.messages[id].operation;
    match &taken.effect {
        Effect::Opens => "the task begins an operation".into(),
        Effect::Performs => performed(run, place, card, taken.operation),
        Effect::Sends(id) => {
            let message = &run.messages[*id];
            let to: Vec<usize> = cards_of(message.packet.to).map(usize::from).collect();
            let (kind, to) = (kind(message.packet.kind), named("card", &to));
            format!("{kind} to {to}, into the outbox of card {card}; task {task} waits")
        }
        Effect::Dispatches(id) => match run.messages[*id]
            .dispatched
            .map(|dispatched| dispatched.how)
        {
            Some(How::Broadcast(number)) => format!("its first message becomes broadcast {number}"),
            Some(How::Single(tag)) => {
                let to = list(cards_of(run.messages[*id].packet.to));
                format!("a single message to card {to} with tag {tag}: card {card} has taken {tag} broadcasts")
            }
            None => String::new(),
        },
        Effect::Takes(id, released) => {
            let message = &run.messages[*id];
            let number = how(message).unwrap_or_default();
            let dropped = message
                .arrivals
                .iter()
                .any(|arrival| arrival.card == card && arrival.dropped);
            let what = match dropped {
                true => format!("{number} is dropped: card {card} is no destination"),
                false => format!("{number} joins the inbox"),
            };
            if released.is_empty() {
                return what;
            }
            let freed: Vec<Number> = released.iter().map(|&id| operation(id)).collect();
            format!(
                "{what}; it releases the held message of {}",
                named("operation", &freed)
            )
        }
        Effect::Reaches(id, held) => {
            let message = &run.messages[*id];
            let kind = kind(message.packet.kind);
            match (held, message.dispatched.map(|dispatched| dispatched.how)) {
                (true, Some(How::Single(tag))) => {
                    let has = run.ticks[place].cards[usize::from(card)].taken;
                    format!("{kind}: held until card {card} has taken broadcast {tag}; it has taken {has}")
                }
                _ => format!("{kind}: joins the inbox of card {card}"),
            }
        }
        Effect::Delivers(id, reply) => delivered(run, place, card, *id, *reply),
        Effect::Reports(value) => match reports_read(run, place) {
            true => format!("task {task} has read {value}"),
            false => format!("the update of task {task} found {value}"),
        },
    }
}

/// What was done at home.
fn performed(run: &Run, place: Place, card: u8, number: Number) -> String {
    let operation = &run.operations[number];
    match operation.update {
        None => {
            let value = run.copy(place, card, operation.register);
            format!(
                "task {} reads {value} from the copy of card {card}",
                operation.task
            )
        }
        Some(_) => applied(run, place, card, operation.register),
    }
}

fn applied(run: &Run, place: Place, card: u8, register: u8) -> String {
    let (was, is) = (
        run.copy(place, card, register),
        run.copy(place + 1, card, register),
    );
    format!("the copy of register {register} on card {card} was {was} and is {is}")
}

fn delivered(run: &Run, place: Place, card: u8, id: Id, reply: Option<Id>) -> String {
    let packet = run.messages[id].packet;
    let home = run.file.homes[usize::from(packet.task)];
    let mut words = format!("{}: ", kind(packet.kind));
    match packet.kind {
        Kind::Read => words += &format!("asks for register {} of card {card}", packet.register),
        Kind::Update => words += &applied(run, place, card, packet.register),
        Kind::ReadReply => words += &format!("task {} has read {}", packet.task, packet.value),
        Kind::UpdateReply => {
            words += &format!("the update of task {} found {}", packet.task, packet.value)
        }
    }
    if packet.kind == Kind::Update && home == card {
        words += &format!("; task {} is done", packet.task);
    }
    if let Some(reply) = reply {
        let value = run.messages[reply].packet.value;
        words += &format!("; a reply to card {home} with {value} joins the outbox");
    }
    words
}

/// Whether a report is of a read: what the task was done with before it (RULES 1.8).
fn reports_read(run: &Run, place: Place) -> bool {
    let task = usize::from(run.steps[place].argument[0]);
    run.ticks[place].tasks[task] == 4
}

/// "broadcast 1", or "single message with tag 1", once it is dispatched.
pub fn how(message: &Message) -> Option<String> {
    Some(match message.dispatched?.how {
        How::Broadcast(number) => format!("broadcast {number}"),
        How::Single(tag) => format!("single message with tag {tag}"),
    })
}

fn short(function: Function) -> &'static str {
    match function {
        Function::Set => "set",
        Function::AddStaysAtTheTop => "add to the top",
        Function::Larger => "larger",
        Function::Or => "or",
        Function::AddComesRound => "add round",
    }
}

/// The short text above a mark.
pub fn label(run: &Run, place: Place) -> String {
    let step = &run.steps[place];
    let task = step.argument[0];
    let taken = match &step.answer {
        Ok(taken) => taken,
        Err(refusal) => return refusal.number().to_string(),
    };
    match &taken.effect {
        Effect::Opens => {
            let operation = &run.operations[taken.operation];
            let register = operation.register;
            match operation.update {
                None => format!("t{task} r{register}"),
                Some((function, operand)) => {
                    format!("t{task} r{register} {} {operand}", short(function))
                }
            }
        }
        Effect::Performs | Effect::Sends(_) => format!("t{task}"),
        Effect::Dispatches(id) => match run.messages[*id]
            .dispatched
            .map(|dispatched| dispatched.how)
        {
            Some(How::Single(tag)) => format!("t{} tag {tag}", run.messages[*id].packet.task),
            _ => how(&run.messages[*id]).unwrap_or_default(),
        },
        Effect::Takes(id, released) => {
            let freed = released
                .iter()
                .map(|&id| format!(", releases t{}", run.messages[id].packet.task));
            how(&run.messages[*id]).unwrap_or_default() + &freed.collect::<String>()
        }
        Effect::Reaches(_, true) => format!("t{task} held"),
        Effect::Reaches(_, false) => format!("t{task}"),
        Effect::Delivers(id, _) => {
            let packet = run.messages[*id].packet;
            let what = match packet.kind {
                Kind::Read => "read",
                Kind::Update => "update",
                Kind::ReadReply | Kind::UpdateReply => "reply",
            };
            format!("t{} {what}", packet.task)
        }
        Effect::Reports(value) => match reports_read(run, place) {
            true => format!("t{task} read {value}"),
            false => format!("t{task} found {value}"),
        },
    }
}

/// What stands beside a mark that changed a copy.
pub fn value(change: &Change) -> String {
    format!("r{}={}", change.register, change.is)
}

/// The word in a mark.
pub fn mark(code: u8) -> &'static str {
    match code {
        1 => "read",
        2 => "update",
        3 => "perform",
        4 | 5 => "send",
        6 => "dispatch",
        7 | 8 => "take",
        9 => "deliver",
        _ => "report",
    }
}

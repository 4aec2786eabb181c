//! Accepted files with something wrong put in, each way of refusals 1 to 4.

use super::{any_placement, near};
use crate::model::files::Run;
use crate::random::Random;

#[derive(Clone, Copy, Debug, PartialEq, Eq)]
pub enum Way {
    CutUnderFive,
    Cut,
    Lengthened,
    Cards,
    Registers,
    Tasks,
    Steps,
    FewerSteps,
    MoreSteps,
    NoCopy,
    CopyOnAbsentCard,
    HomeOnAbsentCard,
    PrimaryWithoutCopy,
    AbsentPrimary,
    /// May be refused or not.
    OneByte,
    AllBytes,
}

pub const WAYS: [Way; 16] = [
    Way::CutUnderFive,
    Way::Cut,
    Way::Lengthened,
    Way::Cards,
    Way::Registers,
    Way::Tasks,
    Way::Steps,
    Way::FewerSteps,
    Way::MoreSteps,
    Way::NoCopy,
    Way::CopyOnAbsentCard,
    Way::HomeOnAbsentCard,
    Way::PrimaryWithoutCopy,
    Way::AbsentPrimary,
    Way::OneByte,
    Way::AllBytes,
];

/// A short file, spoiled in one way, sometimes in a second and a third too.
pub fn spoiled(random: &mut Random) -> Vec<u8> {
    let mut file = good(random);
    loop {
        let way = random.pick(&WAYS);
        spoil(random, &mut file, way);
        if random.percent(75) {
            return file;
        }
    }
}

fn good(random: &mut Random) -> Vec<u8> {
    let placement = any_placement(random);
    let steps = (0..random.between(0, 12)).map(|_| near(random, &placement));
    let steps = steps.collect();
    Run { placement, steps }.write()
}

/// The sizes, as the file itself says.
struct Layout {
    cards: usize,
    registers: usize,
    tasks: usize,
    steps: usize,
}

fn layout(file: &[u8]) -> Option<Layout> {
    let &[cards, registers, tasks, low, high, ..] = file else {
        return None;
    };
    let layout = Layout {
        cards: cards as usize,
        registers: registers as usize,
        tasks: tasks as usize,
        steps: u16::from_le_bytes([low, high]) as usize,
    };
    let placement = 5 + layout.tasks + 2 * layout.registers;
    let fits = layout.registers > 0 && layout.tasks > 0 && layout.cards > 0;
    (fits && file.len() >= placement).then_some(layout)
}

/// Spoils a file in one way; a file that is too broken for it is cut or lengthened instead.
fn spoil(random: &mut Random, file: &mut Vec<u8>, way: Way) {
    let Some(layout) = layout(file) else {
        match random.percent(50) {
            true => file.truncate(file.len() / 2),
            false => file.push(random.byte(0, 255)),
        }
        return;
    };
    let past = |random: &mut Random, most: u8| match random.percent(40) {
        true => 0,
        false => random.pick(&[most + 1, most + 2, 128, 255]),
    };
    let register = random.between(0, layout.registers - 1);
    let copies = 5 + layout.tasks + register;
    let primary = copies + layout.registers;
    let absent = random.byte(layout.cards.min(200) as u8, 255);
    let set_steps = |file: &mut Vec<u8>, steps: usize| {
        file[3..5].copy_from_slice(&(steps as u16).to_le_bytes());
    };
    match way {
        Way::CutUnderFive => file.truncate(random.between(0, 4)),
        Way::Cut => file.truncate(random.between(5, file.len() - 1)),
        Way::Lengthened => {
            for _ in 0..random.pick(&[1, 1, 2, 9, 300]) {
                file.push(random.byte(0, 255));
            }
        }
        Way::Cards => file[0] = past(random, 8),
        Way::Registers => file[1] = past(random, 32),
        Way::Tasks => file[2] = past(random, 16),
        Way::Steps => {
            let steps = random.pick(&[4_097, 4_098, 8_192, 65_535]);
            set_steps(file, steps);
        }
        Way::FewerSteps => set_steps(file, layout.steps.saturating_sub(1)),
        Way::MoreSteps => set_steps(file, layout.steps + 1),
        Way::NoCopy => file[copies] = 0,
        Way::CopyOnAbsentCard => file[copies] |= 1 << absent.min(7),
        Way::HomeOnAbsentCard => file[5 + random.between(0, layout.tasks - 1)] = absent,
        Way::PrimaryWithoutCopy => {
            let card = random.byte(0, layout.cards.min(8) as u8 - 1);
            file[primary] = card;
            file[copies] &= !(1 << card);
        }
        Way::AbsentPrimary => file[primary] = absent,
        Way::OneByte => {
            let at = random.between(0, file.len() - 1);
            file[at] = random.byte(0, 255);
        }
        Way::AllBytes => {
            let length = random.between(0, 60);
            *file = (0..length).map(|_| random.byte(0, 9)).collect();
        }
    }
}

#[cfg(test)]
mod tests {
    use super::*;
    use crate::model::files::answer_file;

    #[test]
    fn each_way_gives_its_refusal() {
        for way in WAYS {
            for item in 0..200 {
                let mut random = Random::new(3, item);
                let mut file = good(&mut random);
                let (steps, cards) = (file[3], file[0]);
                spoil(&mut random, &mut file, way);
                let expected = match way {
                    Way::CutUnderFive | Way::Cut | Way::MoreSteps => 1,
                    Way::FewerSteps if steps == 0 => 0,
                    Way::Lengthened | Way::FewerSteps => 2,
                    Way::Cards | Way::Registers | Way::Tasks | Way::Steps => 3,
                    Way::CopyOnAbsentCard if cards == 8 => 0,
                    Way::OneByte | Way::AllBytes => continue,
                    _ => 4,
                };
                let refusal = answer_file(&file).err().unwrap_or(0);
                assert_eq!(refusal, expected, "{way:?} {item}");
            }
        }
    }
}

//! Loads drawn with one thing wrong, which whoever compares loads must notice; written apart from the
//! model, to which a test holds the right one.

use super::Load;
use crate::model::write::Tables;
use crate::model::Refusal;

#[derive(Clone, Copy, Debug, PartialEq, Eq)]
pub enum Wrong {
    Nothing,
    DrawBeforeTheStateMoves,
    LowBitsAsDraw,
    WholeStateAsDraw,
    AnotherIncrement,
    Modulo31Bits,
    SeedOf16Bits,
    SeedOf31Bits,
    StateNotKept,
    CodesDrawnFirst,
    CodeFromZero,
    NineCodes,
    UnnamedFieldsTakeADraw,
    SecondByteFirst,
    OperandBeforeFunction,
    TaskOf16,
    CardOf8,
    RegisterOf32,
    CardOfTasks,
    ChosenOfRegisters,
    ChosenOfTasks,
    ChosenNotDrawn,
    FunctionFromZero,
    FourFunctions,
    OperandHighByteFirst,
    OperandOfTwoDraws,
    OperandOfAByte,
    StepsInTurn,
    StepsOfTheSecondSeed,
    LastStepAgain,
}

pub const WRONG: [Wrong; 29] = [
    Wrong::DrawBeforeTheStateMoves,
    Wrong::LowBitsAsDraw,
    Wrong::WholeStateAsDraw,
    Wrong::AnotherIncrement,
    Wrong::Modulo31Bits,
    Wrong::SeedOf16Bits,
    Wrong::SeedOf31Bits,
    Wrong::StateNotKept,
    Wrong::CodesDrawnFirst,
    Wrong::CodeFromZero,
    Wrong::NineCodes,
    Wrong::UnnamedFieldsTakeADraw,
    Wrong::SecondByteFirst,
    Wrong::OperandBeforeFunction,
    Wrong::TaskOf16,
    Wrong::CardOf8,
    Wrong::RegisterOf32,
    Wrong::CardOfTasks,
    Wrong::ChosenOfRegisters,
    Wrong::ChosenOfTasks,
    Wrong::ChosenNotDrawn,
    Wrong::FunctionFromZero,
    Wrong::FourFunctions,
    Wrong::OperandHighByteFirst,
    Wrong::OperandOfTwoDraws,
    Wrong::OperandOfAByte,
    Wrong::StepsInTurn,
    Wrong::StepsOfTheSecondSeed,
    Wrong::LastStepAgain,
];

struct Source {
    state: u64,
    wrong: Wrong,
}

impl Source {
    fn draw(&mut self) -> u32 {
        let increment = match self.wrong {
            Wrong::AnotherIncrement => 1_013_904_221,
            _ => 1_013_904_223,
        };
        let bits = match self.wrong {
            Wrong::Modulo31Bits => 31,
            _ => 32,
        };
        let before = self.state;
        self.state = (1_664_525 * self.state + increment) & ((1 << bits) - 1);
        let draw = match self.wrong {
            Wrong::DrawBeforeTheStateMoves => before >> 16,
            Wrong::LowBitsAsDraw => self.state & 65_535,
            Wrong::WholeStateAsDraw => self.state,
            _ => self.state >> 16,
        };
        draw as u32
    }

    fn code(&mut self) -> u8 {
        let draw = self.draw();
        match self.wrong {
            Wrong::CodeFromZero => (draw % 10) as u8,
            Wrong::NineCodes => 1 + (draw % 9) as u8,
            _ => 1 + (draw % 10) as u8,
        }
    }

    /// The bytes of a field, from its first one on.
    fn field(&mut self, code: u8, at: usize, load: &Load) -> Vec<u8> {
        let draw = self.draw();
        let (tasks, registers) = (load.homes.len() as u32, load.copies.len() as u32);
        let of = |size: u32| vec![(draw % size) as u8];
        match (self.wrong, at, code) {
            (Wrong::CardOf8, 0, 6 | 7 | 9) | (Wrong::CardOf8, 1, 4) => of(8),
            (Wrong::CardOfTasks, 0, 6 | 7 | 9) | (Wrong::ChosenOfTasks, 1, 4) => of(tasks),
            (Wrong::ChosenOfRegisters, 1, 4) => of(registers),
            (Wrong::TaskOf16, 0, 1..=5 | 8 | 10) => of(16),
            (Wrong::RegisterOf32, 1, 1 | 2) => of(32),
            (Wrong::FunctionFromZero, 2, _) => of(5),
            (Wrong::FourFunctions, 2, _) => vec![1 + (draw % 4) as u8],
            (Wrong::OperandHighByteFirst, 4, _) => draw.to_be_bytes().into(),
            (Wrong::OperandOfTwoDraws, 4, _) => (draw + (self.draw() << 16)).to_le_bytes().into(),
            (Wrong::OperandOfAByte, 4, _) => of(256),
            (_, 0, 6 | 7 | 9) | (_, 1, 4) => of(load.cards),
            (_, 0, _) => of(tasks),
            (_, 1, _) => of(registers),
            (_, 2, _) => vec![1 + (draw % 5) as u8],
            _ => draw.to_le_bytes().into(),
        }
    }

    fn argument(&mut self, code: u8, load: &Load) -> [u8; 8] {
        let mut argument = [0; 8];
        let order = match self.wrong {
            Wrong::SecondByteFirst => [1, 0, 2, 4],
            Wrong::OperandBeforeFunction => [0, 1, 4, 2],
            _ => [0, 1, 2, 4],
        };
        for at in order {
            let named = match at {
                0 => true,
                1 => matches!(code, 1 | 2) || code == 4 && self.wrong != Wrong::ChosenNotDrawn,
                _ => code == 2,
            };
            if named {
                let bytes = self.field(code, at, load);
                argument[at..at + bytes.len()].copy_from_slice(&bytes);
            } else if self.wrong == Wrong::UnnamedFieldsTakeADraw {
                self.draw();
            }
        }
        argument
    }
}

/// The file, with one thing wrong. Its refusals are right.
pub fn drawn(load: &Load, wrong: Wrong) -> Result<Vec<u8>, Refusal> {
    load.file()?;
    let seed = match wrong {
        Wrong::SeedOf16Bits => load.seed % 65_536,
        Wrong::SeedOf31Bits => load.seed % (1 << 31),
        Wrong::StepsOfTheSecondSeed => load.seed.wrapping_add(1),
        _ => load.seed,
    };
    let state = u64::from(seed);
    let mut source = Source { state, wrong };
    let mut ahead = Vec::new();
    if wrong == Wrong::CodesDrawnFirst {
        ahead.extend((0..load.steps).map(|_| source.code()));
    }
    let mut steps = Vec::new();
    for place in 0..load.steps as usize {
        if wrong == Wrong::StateNotKept {
            source.state = state;
        }
        let code = ahead.get(place).copied();
        let code = code.unwrap_or_else(|| source.code());
        steps.push((code, source.argument(code, load)));
    }
    if let (Wrong::LastStepAgain, &[.., before, _]) = (wrong, &steps[..]) {
        *steps.last_mut().expect("a step") = before;
    }
    let mut tables = load.tables();
    let placed = 5 + tables.homes.len() + 2 * tables.copies.len();
    tables.codes = steps.iter().map(|&(code, _)| code).collect();
    tables.arguments = steps.iter().flat_map(|&(_, argument)| argument).collect();
    let mut file = Tables::file(&tables)?;
    if wrong == Wrong::StepsInTurn {
        file.truncate(placed);
        for (code, argument) in steps {
            file.push(code);
            file.extend(argument);
        }
    }
    Ok(file)
}

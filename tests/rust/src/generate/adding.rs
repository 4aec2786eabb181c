//! Runs whose updates add and come round, made of others.

use crate::model::files::Run;
use crate::model::FUNCTIONS;

/// Gives function 5 to the updates that a run asks for, of the registers that are picked. What is
/// taken or refused stays so: no rule asks which function it is, only whether there is one (8.2).
pub fn adding(run: &mut Run, mut pick: impl FnMut(u8) -> bool) {
    for (code, argument) in &mut run.steps {
        let [_, register, function, ..] = argument;
        if *code == 2 && FUNCTIONS.contains(function) && pick(*register) {
            *function = 5;
        }
    }
}

#[cfg(test)]
mod tests {
    use super::*;
    use crate::generate::file;
    use crate::model::files::answer_file;

    #[test]
    fn results_stay() {
        let mut changed = 0;
        for item in 0..100 {
            let (_, was) = file(8, item);
            let Ok(mut run) = Run::read(&was) else {
                continue;
            };
            adding(&mut run, |register| register % 3 != 0);
            let now = run.write();
            let [before, after] = [&was, &now].map(|file| {
                let answer = answer_file(file).expect("an accepted file");
                answer[..2 + run.steps.len()].to_vec()
            });
            assert_eq!(before, after, "{item}");
            changed += (now != was) as usize;
        }
        assert!(changed > 50);
    }
}

//! Waveforms: a VCD file with a tick for each step (docs/PICTURES.md says what each signal has).

use std::fmt::Write;

use crate::run::{Run, Tick};

/// Signals with their names and how many bits they have, by scope within `run`; those of `run` itself
/// come first, under no name.
type Scopes = Vec<(Option<String>, Vec<(String, u32)>)>;

/// A signal's name tells its card or task, since viewers show it without its scope.
fn scopes(run: &Run) -> Scopes {
    let step = [("place", 13), ("code", 8), ("result", 8), ("value", 32)];
    let of_run = step.into_iter().chain([("made", 16)]);
    let of_run = of_run.map(|(name, bits)| (name.to_string(), bits));
    let mut scopes = vec![(None, of_run.collect())];
    for card in 0..run.file.cards {
        let counts = [("made", 16), ("taken", 16)];
        let lengths = [("outbox", 5), ("inbox", 6), ("held", 5)];
        let counts = counts.into_iter().chain(lengths);
        let counts = counts.map(|(name, bits)| (format!("card{card}_{name}"), bits));
        let copies = run.file.held_by(card);
        let copies = copies.map(|register| (format!("card{card}_register{register}"), 32));
        scopes.push((Some(format!("card{card}")), counts.chain(copies).collect()));
    }
    for task in 0..run.file.homes.len() {
        let state = vec![(format!("task{task}_state"), 3)];
        scopes.push((Some(format!("task{task}")), state));
    }
    scopes
}

/// The value of each signal at a tick, in the order of the scopes.
fn values(run: &Run, place: usize, tick: &Tick) -> Vec<u32> {
    let step = run.steps.get(place).map_or([0; 3], |step| {
        [u32::from(step.code), u32::from(step.result()), step.value()]
    });
    let mut values = vec![place as u32];
    values.extend(step);
    values.push(tick.made);
    for card in &tick.cards {
        let lengths = [card.outbox, card.inbox, card.held].map(|length| length as u32);
        values.extend([card.made, card.taken]);
        values.extend(lengths);
        values.extend(&card.copies);
    }
    values.extend(tick.tasks.iter().map(|&state| u32::from(state)));
    values
}

/// All signals, each as wide as it can be.
pub fn waves(run: &Run, name: &str) -> String {
    let ticks = run.ticks.iter().enumerate();
    let ticks = ticks
        .map(|(place, tick)| values(run, place, tick))
        .collect();
    file(run, name, scopes(run), ticks)
}

/// The same in wires of one bit, for readers that pass over wider ones and over scopes: as many for
/// each signal as its values in the run need.
pub fn bits(run: &Run, name: &str) -> String {
    let ticks = run.ticks.iter().enumerate();
    let ticks: Vec<Vec<u32>> = ticks
        .map(|(place, tick)| values(run, place, tick))
        .collect();
    let signals = scopes(run).into_iter().flat_map(|(_, signals)| signals);
    let mut wires = Vec::new();
    let mut picked = Vec::new();
    for (signal, (name, _)) in signals.enumerate() {
        let all = ticks.iter().fold(0, |all, values| all | values[signal]);
        for bit in (0..(u32::BITS - all.leading_zeros()).max(1)).rev() {
            wires.push((format!("{name}[{bit}]"), 1));
            picked.push((signal, bit));
        }
    }
    let of_tick = |values: Vec<u32>| -> Vec<u32> {
        let bits = picked
            .iter()
            .map(|&(signal, bit)| values[signal] >> bit & 1);
        bits.collect()
    };
    let ticks = ticks.into_iter().map(of_tick).collect();
    file(run, name, vec![(None, wires)], ticks)
}

/// A signal's short name, of printable characters.
fn code(mut signal: usize) -> String {
    let mut name = String::new();
    loop {
        name.push(char::from(b'!' + (signal % 94) as u8));
        signal /= 94;
        if signal == 0 {
            return name;
        }
        signal -= 1;
    }
}

/// Declarations, then what changes at each tick.
fn file(run: &Run, name: &str, scopes: Scopes, ticks: Vec<Vec<u32>>) -> String {
    let mut out = String::new();
    let (taken, refused) = run.counts();
    // What begins with a dollar is a keyword.
    let name: String = name
        .chars()
        .filter(|c| c.is_ascii_graphic() && *c != '$')
        .collect();
    // Writing to a string does not fail.
    let _ = writeln!(out, "$version gondzselu picture $end");
    let _ = writeln!(
        out,
        "$comment {name}: taken {taken}, refused {refused}; a tick is a step $end"
    );
    out += "$timescale 1 us $end\n$scope module run $end\n";
    let mut widths = Vec::new();
    for (scope, signals) in scopes {
        if let Some(scope) = &scope {
            let _ = writeln!(out, "$scope module {scope} $end");
        }
        for (name, bits) in signals {
            let _ = writeln!(out, "$var wire {bits} {} {name} $end", code(widths.len()));
            widths.push(bits);
        }
        if scope.is_some() {
            out += "$upscope $end\n";
        }
    }
    out += "$upscope $end\n$enddefinitions $end\n";
    let mut before: Option<Vec<u32>> = None;
    for (place, now) in ticks.into_iter().enumerate() {
        let _ = writeln!(out, "#{place}");
        out += if before.is_none() { "$dumpvars\n" } else { "" };
        for (signal, value) in now.iter().enumerate() {
            if before
                .as_ref()
                .is_some_and(|before| before[signal] == *value)
            {
                continue;
            }
            let _ = match widths[signal] {
                1 => writeln!(out, "{value}{}", code(signal)),
                _ => writeln!(out, "b{value:b} {}", code(signal)),
            };
        }
        out += if before.is_none() { "$end\n" } else { "" };
        before = Some(now);
    }
    // A tick for the last state, which a viewer would cut off else.
    let _ = writeln!(out, "#{}", run.ticks.len());
    out
}

#[cfg(test)]
mod tests {
    use super::code;
    use std::collections::BTreeSet;

    /// More signals than any run has.
    #[test]
    fn no_two_codes_are_alike() {
        let codes: BTreeSet<String> = (0..10_000).map(code).collect();
        assert_eq!(codes.len(), 10_000);
        let printable = |code: &String| code.bytes().all(|byte| byte.is_ascii_graphic());
        assert!(codes.iter().all(printable));
    }
}

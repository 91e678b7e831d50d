//! A reader of KISS2 that knows the format alone, as the tools of others do: directives in any order, comments, blank lines,
//! any white space, any names, don't cares. What it reads is followed beside a card.

use crate::oracle::Card;
use std::collections::{BTreeMap, BTreeSet};

/// A state machine as KISS2 has it.
#[derive(Clone, PartialEq, Eq, Debug)]
pub struct Machine {
    /// The bits of an input and of an output.
    pub inputs: usize,
    pub outputs: usize,
    pub reset: String,
    /// The lines, by the state that they start from.
    lines: BTreeMap<String, Vec<Line>>,
}

#[derive(Clone, PartialEq, Eq, Debug)]
struct Line {
    /// One of 0, 1 and - for each bit.
    input: String,
    next: String,
    output: String,
}

/// A number in decimal digits, leading zeros or not.
fn decimal(digits: &str) -> Result<usize, String> {
    digits.parse().map_err(|_| format!("{digits} is no number"))
}

/// Reads a text. What it leaves out may be left out: `.p`, `.s`, the reset state (then it is that of the first line), `.e`.
pub fn read(text: &str) -> Result<Machine, String> {
    let mut numbers: BTreeMap<&str, usize> = BTreeMap::new();
    let (mut reset, mut first) = (None, None);
    let mut lines: BTreeMap<String, Vec<Line>> = BTreeMap::new();
    for line in text.lines() {
        let line = line.split('#').next().expect("a line has a front");
        match line.split_whitespace().collect::<Vec<&str>>()[..] {
            [] => (),
            [".e" | ".end", ..] => break,
            [".r", name] => reset = Some(name.to_string()),
            [directive @ (".i" | ".o" | ".s" | ".p"), number] => {
                numbers.insert(directive, decimal(number)?);
            }
            [input, state, next, output] if !input.starts_with('.') => {
                first.get_or_insert(state.to_string());
                let [input, next, output] = [input, next, output].map(str::to_string);
                lines.entry(state.to_string()).or_default().push(Line { input, next, output });
            }
            ref other => return Err(format!("{other:?} is no line of KISS2")),
        }
    }
    let reset = reset.or(first).ok_or("there is no reset state")?;
    let size = |name: &str| numbers.get(name).copied().ok_or(format!("{name} is missing"));
    let machine = Machine { inputs: size(".i")?, outputs: size(".o")?, reset, lines };
    machine.check(numbers.get(".s").copied(), numbers.get(".p").copied())?;
    Ok(machine)
}

impl Machine {
    /// Inputs and outputs have their bits, there are as many lines as `.p` says, and no more states than `.s` says.
    fn check(&self, states: Option<usize>, count: Option<usize>) -> Result<(), String> {
        let all = || self.lines.values().flatten();
        let of = |bits: &str, length: usize| bits.len() == length && bits.chars().all(|bit| "01-".contains(bit));
        if let Some(line) = all().find(|line| !of(&line.input, self.inputs) || !of(&line.output, self.outputs)) {
            return Err(format!("{line:?} has other bits than {} and {}", self.inputs, self.outputs));
        }
        let named = self.lines.keys().chain(all().map(|line| &line.next)).chain([&self.reset]);
        let named = named.collect::<BTreeSet<_>>().len();
        match count.is_none_or(|count| count == all().count()) && states.is_none_or(|states| named <= states) {
            true => Ok(()),
            false => Err(format!("{} lines for {count:?}, {named} states for {states:?}", all().count())),
        }
    }

    /// Where the machine goes from a state on an input, and what it puts out; nothing where that is left open. Two lines
    /// for one input must say the same.
    pub fn step(&self, state: &str, input: usize) -> Result<Option<(&str, &str)>, String> {
        let bits = format!("{input:0width$b}", width = self.inputs);
        let fits = |line: &&Line| line.input.chars().zip(bits.chars()).all(|(one, other)| one == '-' || one == other);
        let mut found = self.lines.get(state).into_iter().flatten().filter(fits);
        let Some(line) = found.next() else { return Ok(None) };
        match found.all(|other| (&other.next, &other.output) == (&line.next, &line.output)) {
            true => Ok(Some((&line.next, &line.output))),
            false => Err(format!("{state} has two ways on input {bits}")),
        }
    }

    /// Follows machine and card side by side from reset on, on every list of observations that can occur: the machine puts
    /// out the action of the cell that the card enters. Where the card says that an observation cannot occur, the machine
    /// may do what it likes, or (`strict`) has no line. How many moves were compared.
    pub fn follows(&self, card: &Card, strict: bool) -> Result<usize, String> {
        let named = |cell: Option<usize>| cell.map_or(&card.first, |cell| &card.cells[cell].next);
        let (mut waiting, mut met, mut moves) = (vec![(self.reset.as_str(), None)], BTreeSet::new(), 0);
        while let Some((state, cell)) = waiting.pop() {
            if !met.insert((state, cell)) {
                continue;
            }
            for (observation, &entered) in named(cell).iter().enumerate() {
                moves += 1;
                match (entered, self.step(state, observation)?) {
                    (None, None) => (),
                    (None, Some(_)) if !strict => (),
                    (Some(entered), Some((next, output)))
                        if usize::from_str_radix(output, 2) == Ok(card.cells[entered].action) =>
                    {
                        waiting.push((next, Some(entered)));
                    }
                    (_, moved) => return Err(format!("{state}, {observation}: {moved:?}, the card enters {entered:?}")),
                }
            }
        }
        Ok(moves)
    }

    /// How many states have a line or are named.
    pub fn states(&self) -> usize {
        let named = self.lines.values().flatten().map(|line| &line.next);
        self.lines.keys().chain(named).chain([&self.reset]).collect::<BTreeSet<_>>().len()
    }

    /// How many lines there are.
    pub fn line_count(&self) -> usize {
        self.lines.values().map(Vec::len).sum()
    }
}

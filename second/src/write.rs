//! The writer of sheets (document 02, request 01): the numbers of a form, in the sheet's
//! order, to bytes. It judges the numbers themselves and reads no bytes, so that it and the reader check each other.

use crate::sheet::Refusal;

/// What an operand of a line is.
#[derive(Clone, Copy)]
enum Operand {
    Name,
    Role,
    Line,
}

/// The operands of each kind of line.
const OPERANDS: [&[Operand]; 8] = [
    &[],
    &[],
    &[Operand::Name],
    &[Operand::Line],
    &[Operand::Line, Operand::Line],
    &[Operand::Line, Operand::Line],
    &[Operand::Role, Operand::Line],
    &[Operand::Role, Operand::Line],
];

/// Numbers from here on take three groups of seven bits.
const THIRD_BYTE: u16 = 1 << 14;

/// The answer's number, what it carries, and the bytes that end up at the front of a buffer of that length: under 0
/// the sheet, else none. 16 carries the length wanted, 1 to 6 the place.
pub fn write(numbers: &[u16], length: usize) -> (u8, u64, Vec<u8>) {
    if let Err(Refusal { number, place }) = judge(numbers) {
        return (number, place, Vec::new());
    }
    if length < numbers.len() {
        return (16, numbers.len() as u64, Vec::new());
    }
    (0, numbers.len() as u64, numbers.iter().map(|&number| number as u8).collect())
}

/// The first number that breaks a limit. All before it are within theirs, which are below 128: each takes one byte,
/// so that its place is how many there are.
fn judge(numbers: &[u16]) -> Result<(), Refusal> {
    let mut walk = Walk { numbers, at: 0 };
    let lines = walk.count(32)?;
    for own in 0..lines {
        let kind = walk.below(8, 4)?;
        for operand in OPERANDS[kind] {
            match operand {
                Operand::Name => walk.below(32, 4)?,
                Operand::Role => walk.below(8, 4)?,
                Operand::Line => walk.below(own, 5)?,
            };
        }
    }
    for _ in 0..walk.count(12)? {
        walk.below(lines, 5)?;
        walk.below(lines, 5)?;
    }
    let individuals = walk.count(8)?;
    for _ in 0..walk.count(16)? {
        walk.below(individuals, 5)?;
        walk.below(lines, 5)?;
    }
    for _ in 0..walk.count(16)? {
        walk.below(8, 4)?;
        walk.below(individuals, 5)?;
        walk.below(individuals, 5)?;
    }
    if walk.at < numbers.len() {
        return Err(walk.refusal(6));
    }
    Ok(())
}

struct Walk<'a> {
    numbers: &'a [u16],
    at: usize,
}

impl Walk<'_> {
    fn refusal(&self, number: u8) -> Refusal {
        Refusal { number, place: self.at as u64 }
    }

    /// The next number, which has to be below `many`.
    fn below(&mut self, many: usize, answer: u8) -> Result<usize, Refusal> {
        let &number = self.numbers.get(self.at).ok_or(self.refusal(1))?;
        if number >= THIRD_BYTE {
            return Err(self.refusal(2));
        }
        if number as usize >= many {
            return Err(self.refusal(answer));
        }
        self.at += 1;
        Ok(number as usize)
    }

    fn count(&mut self, most: usize) -> Result<usize, Refusal> {
        self.below(most + 1, 3)
    }
}

//! The reader of sheets (document 01, "How a sheet is laid out" and "What the desk replies", answers 1 to 6).

pub const TOP: u8 = 0;
pub const BOTTOM: u8 = 1;
pub const NAME: u8 = 2;
pub const NOT: u8 = 3;
pub const AND: u8 = 4;
pub const OR: u8 = 5;
pub const SOME: u8 = 6;
pub const ONLY: u8 = 7;

/// The largest number of records that may be lent.
pub const MOST_RECORDS: u64 = 4096;

/// For a name, `first` is the name. For some and only, `first` is the role and `second` the line.
#[derive(Clone, Copy, PartialEq, Eq, Debug)]
pub struct Line {
    pub kind: u8,
    pub first: u8,
    pub second: u8,
}

#[derive(Clone, PartialEq, Eq, Debug, Default)]
pub struct Sheet {
    pub lines: Vec<Line>,
    /// c, d for c ⊑ d
    pub rules: Vec<(u8, u8)>,
    pub individuals: u8,
    /// individual, line
    pub classes: Vec<(u8, u8)>,
    /// role, from, to
    pub roles: Vec<(u8, u8, u8)>,
}

/// An answer from 1 to 8 with the place it carries.
#[derive(Clone, Copy, PartialEq, Eq, Debug)]
pub struct Refusal {
    pub number: u8,
    pub place: u64,
}

fn refuse<T>(number: u8, place: usize) -> Result<T, Refusal> {
    Err(Refusal { number, place: place as u64 })
}

struct Reader<'a> {
    bytes: &'a [u8],
    at: usize,
}

impl Reader<'_> {
    /// One number and the place of its first byte.
    fn number(&mut self) -> Result<(u16, usize), Refusal> {
        let place = self.at;
        let Some(&low) = self.bytes.get(place) else {
            return refuse(1, place);
        };
        if low < 0x80 {
            self.at = place + 1;
            return Ok((low as u16, place));
        }
        let Some(&high) = self.bytes.get(place + 1) else {
            return refuse(1, place);
        };
        if high >= 0x80 || high == 0 {
            return refuse(2, place);
        }
        self.at = place + 2;
        Ok(((low & 0x7f) as u16 | (high as u16) << 7, place))
    }

    /// A number of at most `most`; otherwise the given answer.
    fn up_to(&mut self, most: u16, answer: u8) -> Result<u8, Refusal> {
        let (value, place) = self.number()?;
        if value > most {
            return refuse(answer, place);
        }
        Ok(value as u8)
    }

    fn count(&mut self, most: u16) -> Result<u8, Refusal> {
        self.up_to(most, 3)
    }

    fn role(&mut self) -> Result<u8, Refusal> {
        self.up_to(7, 4)
    }

    /// A line or an individual, of which there are `many` that may be named here.
    fn one_of(&mut self, many: usize) -> Result<u8, Refusal> {
        let (value, place) = self.number()?;
        if value as usize >= many {
            return refuse(5, place);
        }
        Ok(value as u8)
    }

    fn line(&mut self, own: usize) -> Result<Line, Refusal> {
        let kind = self.up_to(7, 4)?;
        let (first, second) = match kind {
            TOP | BOTTOM => (0, 0),
            NAME => (self.up_to(31, 4)?, 0),
            NOT => (self.one_of(own)?, 0),
            AND | OR => (self.one_of(own)?, self.one_of(own)?),
            _ => (self.role()?, self.one_of(own)?),
        };
        Ok(Line { kind, first, second })
    }
}

/// The sheet that the bytes spell, or the first fault from front to back.
pub fn read(bytes: &[u8]) -> Result<Sheet, Refusal> {
    let mut reader = Reader { bytes, at: 0 };
    let mut sheet = Sheet::default();
    for own in 0..reader.count(32)? as usize {
        sheet.lines.push(reader.line(own)?);
    }
    let lines = sheet.lines.len();
    for _ in 0..reader.count(12)? {
        sheet.rules.push((reader.one_of(lines)?, reader.one_of(lines)?));
    }
    sheet.individuals = reader.count(8)?;
    let individuals = sheet.individuals as usize;
    for _ in 0..reader.count(16)? {
        sheet.classes.push((reader.one_of(individuals)?, reader.one_of(lines)?));
    }
    for _ in 0..reader.count(16)? {
        let role = reader.role()?;
        sheet.roles.push((role, reader.one_of(individuals)?, reader.one_of(individuals)?));
    }
    if reader.at < bytes.len() {
        return refuse(6, reader.at);
    }
    Ok(sheet)
}

/// Room minus e·2^(e-1), with e the number of some and only lines.
pub fn balance(bytes: &[u8], room: u64) -> Result<i64, Refusal> {
    if room > MOST_RECORDS {
        return refuse(7, 0);
    }
    let sheet = read(bytes)?;
    let e = sheet.lines.iter().filter(|line| line.kind >= SOME).count() as i64;
    let worst = if e == 0 { 0 } else { e << (e - 1) };
    Ok(room as i64 - worst)
}

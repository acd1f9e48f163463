//! Sheets that are built by name and written by the engine.
use crate::{strange, write, Cause, Refusal, Written, MOST_SHEET};
use std::fmt;

/// A line of a [`Sheet`]: a class.
///
/// ```
/// let mut sheet = bargaindune::Sheet::new();
/// let (first, second) = (sheet.top(), sheet.bottom());
/// assert_eq!((first.number(), second.number()), (0, 1));
/// ```
#[derive(Clone, Copy, Debug, PartialEq, Eq, PartialOrd, Ord, Hash)]
pub struct Line(u16);

impl Line {
    /// The line's number, which is what [`causes`](crate::causes) takes as the class.
    pub fn number(self) -> u64 {
        self.0.into()
    }
}

/// A rule of a [`Sheet`].
///
/// ```
/// let mut sheet = bargaindune::Sheet::new();
/// let line = sheet.name(0);
/// let (first, second) = (sheet.rule(line, line), sheet.rule(line, line));
/// assert_eq!((first.number(), second.number()), (0, 1));
/// ```
#[derive(Clone, Copy, Debug, PartialEq, Eq, PartialOrd, Ord, Hash)]
pub struct Rule(u16);

impl Rule {
    /// The rule's number.
    pub fn number(self) -> u64 {
        self.0.into()
    }

    /// Is the rule in this set?
    ///
    /// ```
    /// use bargaindune::{Desk, Listed, Sheet};
    ///
    /// let mut sheet = Sheet::new();
    /// let (debug, test, scan) = (sheet.name(0), sheet.name(1), sheet.name(2));
    /// let wildcard = sheet.rule(debug, test);
    /// let unrelated = sheet.rule(scan, test);
    /// let port = sheet.port();
    /// sheet.is_in(port, debug);
    /// let bytes = sheet.bytes()?;
    /// let mut desk = Desk::new();
    /// let Listed::Causes(&[cause]) = desk.causes(&bytes, port.number(), test.number())? else {
    ///     panic!("one cause was wanted");
    /// };
    /// assert!(wildcard.is_in(cause) && !unrelated.is_in(cause));
    /// # Ok::<(), Box<dyn std::error::Error>>(())
    /// ```
    pub fn is_in(self, cause: Cause) -> bool {
        cause.rule_numbers().any(|rule| rule == self.number())
    }
}

/// A port of a [`Sheet`]: an individual.
///
/// ```
/// let mut sheet = bargaindune::Sheet::new();
/// let (first, second) = (sheet.port(), sheet.port());
/// assert_eq!((first.number(), second.number()), (0, 1));
/// ```
#[derive(Clone, Copy, Debug, PartialEq, Eq, PartialOrd, Ord, Hash)]
pub struct Port(u16);

impl Port {
    /// The port's number, which is what [`causes`](crate::causes) takes.
    pub fn number(self) -> u64 {
        self.0.into()
    }
}

/// What a number of a [`Sheet`] belongs to. Assertions are counted from 0, class assertions apart from role assertions.
///
/// ```
/// use bargaindune::{Item, Sheet};
///
/// let mut sheet = Sheet::new();
/// let port = sheet.port();
/// sheet.leads(0, port, port);
/// sheet.leads(8, port, port);
/// let fault = sheet.bytes().unwrap_err();
/// assert_eq!(fault.item, Item::RoleAssertion(1));
/// assert_eq!(fault.item.to_string(), "role assertion 1");
/// ```
#[derive(Clone, Copy, Debug, PartialEq, Eq, Hash)]
pub enum Item {
    /// The count of lines.
    Lines,
    /// A line: its kind, or an operand.
    Line(Line),
    /// The count of rules.
    Rules,
    /// A rule.
    Rule(Rule),
    /// The count of ports.
    Ports,
    /// The count of class assertions ([`Sheet::is_in`]).
    ClassAssertions,
    /// A class assertion.
    ClassAssertion(usize),
    /// The count of role assertions ([`Sheet::leads`]).
    RoleAssertions,
    /// A role assertion.
    RoleAssertion(usize),
}

impl fmt::Display for Item {
    fn fmt(&self, f: &mut fmt::Formatter<'_>) -> fmt::Result {
        match self {
            Item::Lines => f.write_str("the count of lines"),
            Item::Line(line) => write!(f, "line {}", line.0),
            Item::Rules => f.write_str("the count of rules"),
            Item::Rule(rule) => write!(f, "rule {}", rule.0),
            Item::Ports => f.write_str("the count of ports"),
            Item::ClassAssertions => f.write_str("the count of class assertions"),
            Item::ClassAssertion(n) => write!(f, "class assertion {n}"),
            Item::RoleAssertions => f.write_str("the count of role assertions"),
            Item::RoleAssertion(n) => write!(f, "role assertion {n}"),
        }
    }
}

/// Why [`Sheet::bytes`] writes nothing: the first number that is refused, and what it belongs to.
///
/// ```
/// use bargaindune::{Item, Reason, Sheet};
///
/// let mut sheet = Sheet::new();
/// sheet.top();
/// let large = sheet.name(32);
/// let fault = sheet.bytes().unwrap_err();
/// assert_eq!((fault.item, fault.value), (Item::Line(large), 32));
/// assert_eq!((fault.refusal.reason, fault.refusal.place), (Reason::TooLarge, 3));
/// assert_eq!(fault.to_string(), "32 in line 1: a kind, name or role too large, at byte 3 of the sheet");
/// ```
#[derive(Clone, Copy, Debug, PartialEq, Eq, Hash)]
pub struct Fault {
    /// The answer of [`write()`].
    pub refusal: Refusal,
    /// What the refused number belongs to.
    pub item: Item,
    /// The refused number.
    pub value: u16,
}

impl fmt::Display for Fault {
    fn fmt(&self, f: &mut fmt::Formatter<'_>) -> fmt::Result {
        let tie = match self.item {
            Item::Lines
            | Item::Rules
            | Item::Ports
            | Item::ClassAssertions
            | Item::RoleAssertions => "as",
            _ => "in",
        };
        write!(f, "{} {tie} {}: {}", self.value, self.item, self.refusal)
    }
}

impl std::error::Error for Fault {}

/// A sheet that is built by name: lines, rules, ports and assertions, in any order.
///
/// Each line, rule and port is answered with a small handle that stands for its number, so that a line names only lines before it. Nothing is tested
/// until [`bytes`](Sheet::bytes) hands the whole to the engine, which writes it or says what is wrong. A handle of another sheet stands for the same
/// number here, and is refused where that may not be named.
///
/// The Friday port of the repository's docs/FRIDAY.md:
///
/// ```
/// use bargaindune::Sheet;
///
/// let mut sheet = Sheet::new();
/// let debug = sheet.name(0);
/// let test = sheet.name(1);
/// let exempt = sheet.name(2);
/// let drives = 0;
/// let drives_test = sheet.some(drives, test);
/// let scan = sheet.name(3);
///
/// sheet.rule(debug, test);
/// sheet.rule(test, exempt);
/// sheet.rule(drives_test, test);
/// sheet.rule(scan, exempt);
///
/// let dbg_tx = sheet.port();
/// let bus_out = sheet.port();
/// sheet.is_in(dbg_tx, debug);
/// sheet.leads(drives, bus_out, dbg_tx);
///
/// assert_eq!(sheet.bytes()?, [
///     5, 2, 0, 2, 1, 2, 2, 6, 0, 1, 2, 3, // lines
///     4, 0, 1, 1, 2, 3, 1, 4, 2, // rules
///     2, // ports
///     1, 0, 0, // dbg_tx is in line 0
///     1, 0, 1, 0, // role 0 leads from bus_out to dbg_tx
/// ]);
/// # Ok::<(), bargaindune::Fault>(())
/// ```
#[derive(Clone, Debug, Default, PartialEq, Eq, Hash)]
pub struct Sheet {
    lines: Vec<Constructor>,
    rules: Vec<[u16; 2]>,
    ports: u16,
    classes: Vec<[u16; 2]>,
    roles: Vec<[u16; 3]>,
}

#[derive(Clone, Copy, Debug, PartialEq, Eq, Hash)]
enum Constructor {
    Top,
    Bottom,
    Name(u16),
    Not(Line),
    And(Line, Line),
    Or(Line, Line),
    Some(u16, Line),
    Only(u16, Line),
}

/// A count, or the number of what comes next. What does not fit would need a third byte, and so does the largest that fits: both are refused alike.
fn count(entries: usize) -> u16 {
    u16::try_from(entries).unwrap_or(u16::MAX)
}

impl Sheet {
    /// A sheet without lines, rules, ports and assertions.
    ///
    /// ```
    /// assert_eq!(bargaindune::Sheet::new().bytes(), Ok(vec![0, 0, 0, 0, 0]));
    /// ```
    pub fn new() -> Sheet {
        Sheet::default()
    }

    fn line(&mut self, constructor: Constructor) -> Line {
        let line = Line(count(self.lines.len()));
        self.lines.push(constructor);
        line
    }

    /// A line: everything.
    ///
    /// ```
    /// let mut sheet = bargaindune::Sheet::new();
    /// sheet.top();
    /// assert_eq!(sheet.numbers(), [1, 0, 0, 0, 0, 0]);
    /// ```
    pub fn top(&mut self) -> Line {
        self.line(Constructor::Top)
    }

    /// A line: nothing.
    ///
    /// ```
    /// let mut sheet = bargaindune::Sheet::new();
    /// sheet.bottom();
    /// assert_eq!(sheet.numbers(), [1, 1, 0, 0, 0, 0]);
    /// ```
    pub fn bottom(&mut self) -> Line {
        self.line(Constructor::Bottom)
    }

    /// A line: what has the name, 0 to 31.
    ///
    /// ```
    /// let mut sheet = bargaindune::Sheet::new();
    /// sheet.name(9);
    /// assert_eq!(sheet.numbers(), [1, 2, 9, 0, 0, 0, 0]);
    /// ```
    pub fn name(&mut self, name: u16) -> Line {
        self.line(Constructor::Name(name))
    }

    /// A line: what is not in that line.
    ///
    /// ```
    /// let mut sheet = bargaindune::Sheet::new();
    /// let nine = sheet.name(9);
    /// sheet.not(nine);
    /// assert_eq!(sheet.numbers(), [2, 2, 9, 3, 0, 0, 0, 0, 0]);
    /// ```
    pub fn not(&mut self, line: Line) -> Line {
        self.line(Constructor::Not(line))
    }

    /// A line: what is in both lines.
    ///
    /// ```
    /// let mut sheet = bargaindune::Sheet::new();
    /// let (eight, nine) = (sheet.name(8), sheet.name(9));
    /// sheet.and(nine, eight);
    /// assert_eq!(sheet.numbers(), [3, 2, 8, 2, 9, 4, 1, 0, 0, 0, 0, 0]);
    /// ```
    pub fn and(&mut self, first: Line, second: Line) -> Line {
        self.line(Constructor::And(first, second))
    }

    /// A line: what is in one of the lines, or in both.
    ///
    /// ```
    /// let mut sheet = bargaindune::Sheet::new();
    /// let (eight, nine) = (sheet.name(8), sheet.name(9));
    /// sheet.or(nine, eight);
    /// assert_eq!(sheet.numbers(), [3, 2, 8, 2, 9, 5, 1, 0, 0, 0, 0, 0]);
    /// ```
    pub fn or(&mut self, first: Line, second: Line) -> Line {
        self.line(Constructor::Or(first, second))
    }

    /// A line: what has a neighbour in that line along the role, 0 to 7.
    ///
    /// ```
    /// let mut sheet = bargaindune::Sheet::new();
    /// let nine = sheet.name(9);
    /// sheet.some(7, nine);
    /// assert_eq!(sheet.numbers(), [2, 2, 9, 6, 7, 0, 0, 0, 0, 0]);
    /// ```
    pub fn some(&mut self, role: u16, line: Line) -> Line {
        self.line(Constructor::Some(role, line))
    }

    /// A line: what has all its neighbours along the role, 0 to 7, in that line.
    ///
    /// ```
    /// let mut sheet = bargaindune::Sheet::new();
    /// let nine = sheet.name(9);
    /// sheet.only(7, nine);
    /// assert_eq!(sheet.numbers(), [2, 2, 9, 7, 7, 0, 0, 0, 0, 0]);
    /// ```
    pub fn only(&mut self, role: u16, line: Line) -> Line {
        self.line(Constructor::Only(role, line))
    }

    /// A rule: whatever is in the first line is in the second.
    ///
    /// ```
    /// let mut sheet = bargaindune::Sheet::new();
    /// let (eight, nine) = (sheet.name(8), sheet.name(9));
    /// sheet.rule(nine, eight);
    /// assert_eq!(sheet.numbers(), [2, 2, 8, 2, 9, 1, 1, 0, 0, 0, 0]);
    /// ```
    pub fn rule(&mut self, first: Line, second: Line) -> Rule {
        let rule = Rule(count(self.rules.len()));
        self.rules.push([first.0, second.0]);
        rule
    }

    /// A port.
    ///
    /// ```
    /// let mut sheet = bargaindune::Sheet::new();
    /// sheet.port();
    /// assert_eq!(sheet.numbers(), [0, 0, 1, 0, 0]);
    /// ```
    pub fn port(&mut self) -> Port {
        let port = Port(self.ports);
        self.ports = self.ports.saturating_add(1);
        port
    }

    /// A class assertion: the port is in the line.
    ///
    /// ```
    /// let mut sheet = bargaindune::Sheet::new();
    /// let (port, top) = (sheet.port(), sheet.top());
    /// sheet.is_in(port, top);
    /// assert_eq!(sheet.numbers(), [1, 0, 0, 1, 1, 0, 0, 0]);
    /// ```
    pub fn is_in(&mut self, port: Port, line: Line) {
        self.classes.push([port.0, line.0]);
    }

    /// A role assertion: the role, 0 to 7, leads from one port to the other.
    ///
    /// ```
    /// let mut sheet = bargaindune::Sheet::new();
    /// let (port, other) = (sheet.port(), sheet.port());
    /// sheet.leads(7, other, port);
    /// assert_eq!(sheet.numbers(), [0, 0, 2, 0, 1, 7, 1, 0]);
    /// ```
    pub fn leads(&mut self, role: u16, from: Port, to: Port) {
        self.roles.push([role, from.0, to.0]);
    }

    /// Each number in the order of a sheet, with what it belongs to.
    fn laid_out(&self) -> Vec<(Item, u16)> {
        let mut all = vec![(Item::Lines, count(self.lines.len()))];
        for (n, &constructor) in self.lines.iter().enumerate() {
            let (kind, operands) = match constructor {
                Constructor::Top => (0, [None, None]),
                Constructor::Bottom => (1, [None, None]),
                Constructor::Name(name) => (2, [Some(name), None]),
                Constructor::Not(i) => (3, [Some(i.0), None]),
                Constructor::And(i, j) => (4, [Some(i.0), Some(j.0)]),
                Constructor::Or(i, j) => (5, [Some(i.0), Some(j.0)]),
                Constructor::Some(role, i) => (6, [Some(role), Some(i.0)]),
                Constructor::Only(role, i) => (7, [Some(role), Some(i.0)]),
            };
            let item = Item::Line(Line(count(n)));
            all.push((item, kind));
            all.extend(operands.into_iter().flatten().map(|value| (item, value)));
        }
        all.push((Item::Rules, count(self.rules.len())));
        for (n, rule) in self.rules.iter().enumerate() {
            all.extend(rule.map(|line| (Item::Rule(Rule(count(n))), line)));
        }
        all.push((Item::Ports, self.ports));
        all.push((Item::ClassAssertions, count(self.classes.len())));
        for (n, class) in self.classes.iter().enumerate() {
            all.extend(class.map(|value| (Item::ClassAssertion(n), value)));
        }
        all.push((Item::RoleAssertions, count(self.roles.len())));
        for (n, role) in self.roles.iter().enumerate() {
            all.extend(role.map(|value| (Item::RoleAssertion(n), value)));
        }
        all
    }

    /// The numbers of the sheet, in its order, as [`write()`] takes them. A count over 65,535 stands as 65,535.
    ///
    /// ```
    /// let mut sheet = bargaindune::Sheet::new();
    /// let top = sheet.top();
    /// sheet.not(top);
    /// assert_eq!(sheet.numbers(), [2, 0, 3, 0, 0, 0, 0, 0]);
    /// ```
    pub fn numbers(&self) -> Vec<u16> {
        self.laid_out()
            .into_iter()
            .map(|(_, value)| value)
            .collect()
    }

    /// The bytes of the sheet, as the questions take them; or what the engine refuses about it.
    ///
    /// ```
    /// use bargaindune::{Item, Reason, Sheet};
    ///
    /// let mut sheet = Sheet::new();
    /// for _ in 0..33 {
    ///     sheet.top();
    /// }
    /// let fault = sheet.bytes().unwrap_err();
    /// assert_eq!((fault.refusal.reason, fault.item), (Reason::OverLimit, Item::Lines));
    /// assert_eq!(fault.to_string(), "33 as the count of lines: a count over its limit, at byte 0 of the sheet");
    /// ```
    pub fn bytes(&self) -> Result<Vec<u8>, Fault> {
        let mut out = vec![0; MOST_SHEET];
        match write(&self.numbers(), &mut out) {
            Written::Sheet { bytes } => {
                out.truncate(bytes);
                Ok(out)
            }
            Written::Refused(refusal) => Err(self.fault(refusal)),
            Written::ShortBuffer { bytes } => strange(16, bytes as u64),
        }
    }

    /// The numbers before the refused one are in order, so that each takes one byte, and the place is an index of numbers too. It has a number, since
    /// the counts are right: a built sheet never ends too early, and nothing is left over.
    fn fault(&self, refusal: Refusal) -> Fault {
        match self.laid_out().get(refusal.place) {
            Some(&(item, value)) => Fault {
                refusal,
                item,
                value,
            },
            None => strange(refusal.reason.number(), refusal.place as u64),
        }
    }
}

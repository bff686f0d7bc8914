//! Questions: reading, bounds, answers, fields and steps (docs/QUESTIONS.md).

use crate::refusal::Refusal;

/// One value for each of the fields 0 to 3.
pub type Sheet = [u8; 4];

/// The greatest answer.
pub const GREATEST: u8 = 15;
/// How many answers there are.
pub const ANSWERS: usize = GREATEST as usize + 1;

const LONGEST: usize = 64;
const GREATEST_BOUND: i64 = 1_000_000;
/// The bytes of the shortest question, `f` and its field.
const SHORTEST: usize = 2;
/// A byte can stand as long as the bytes can be continued to a whole expression, however long: docs/QUESTIONS.md says so. Were
/// it a question of at most 64 bytes, this would be true, and refusal 9 would come at an earlier place.
const CONTINUED_WITHIN_LONGEST: bool = false;

/// A command with its operands. Operands that are questions stand as their places in the list of commands.
#[derive(Clone, Copy, Debug)]
enum Command {
    Field(u8),
    Number(u16),
    Add(u8, u8),
    Subtract(u8, u8),
    Multiply(u8, u8),
    Less(u8, u8),
    Equal(u8, u8),
    And(u8, u8),
    Or(u8, u8),
    Not(u8),
    If(u8, u8, u8),
}

/// A step says that a field is less than a limit.
#[derive(Clone, Copy, Debug, PartialEq, Eq)]
pub struct Step {
    pub field: usize,
    pub limit: u16,
}

#[derive(Clone, Debug)]
pub struct Question {
    /// In the order of their completing: each stands after its operands, and the whole question is the last.
    commands: Vec<Command>,
    reads: [bool; 4],
    stepped: bool,
    steps: Vec<Step>,
}

impl Question {
    pub fn read(bytes: &[u8]) -> Result<Question, Refusal> {
        if bytes.len() > LONGEST {
            return Err(Refusal::Unreadable(LONGEST));
        }
        let mut reader = Reader { bytes, place: 0, due: SHORTEST, commands: Vec::new(), starts: Vec::new() };
        reader.question()?;
        if reader.place < bytes.len() {
            return Err(Refusal::Unreadable(reader.place));
        }
        check_bounds(&reader.commands, &reader.starts)?;
        Ok(Question::new(reader.commands))
    }

    fn new(commands: Vec<Command>) -> Question {
        let mut reads = [false; 4];
        let mut fields = 0;
        let mut steps = Vec::new();
        for command in &commands {
            match *command {
                Command::Field(k) => {
                    reads[k as usize] = true;
                    fields += 1;
                }
                Command::Less(a, b) => {
                    if let (Command::Field(k), Command::Number(v)) = (commands[a as usize], commands[b as usize]) {
                        steps.push(Step { field: k as usize, limit: v });
                    }
                }
                _ => {}
            }
        }
        // Each step has one field of its own.
        Question { stepped: fields == steps.len(), commands, reads, steps }
    }

    pub fn reads(&self, field: usize) -> bool {
        self.reads[field]
    }

    pub fn is_stepped(&self) -> bool {
        self.stepped
    }

    pub fn steps(&self) -> &[Step] {
        &self.steps
    }

    pub fn answer(&self, sheet: &Sheet) -> u8 {
        let mut values = [0i64; LONGEST];
        let mut value = 0;
        for (place, command) in self.commands.iter().enumerate() {
            let v = |operand: u8| values[operand as usize];
            value = match *command {
                Command::Field(k) => sheet[k as usize] as i64,
                Command::Number(n) => n as i64,
                Command::Add(a, b) => v(a) + v(b),
                Command::Subtract(a, b) => v(a) - v(b),
                Command::Multiply(a, b) => v(a) * v(b),
                Command::Less(a, b) => (v(a) < v(b)) as i64,
                Command::Equal(a, b) => (v(a) == v(b)) as i64,
                Command::And(a, b) => (v(a) != 0 && v(b) != 0) as i64,
                Command::Or(a, b) => (v(a) != 0 || v(b) != 0) as i64,
                Command::Not(a) => (v(a) == 0) as i64,
                Command::If(a, b, c) => if v(a) != 0 { v(b) } else { v(c) },
            };
            values[place] = value;
        }
        value.clamp(0, GREATEST as i64) as u8
    }
}

/// Refuses at the first byte of the first completed command whose bound passes the greatest. All bounds before it are
/// at most 1,000,000, so no sum and no product of them leaves 64 bits.
fn check_bounds(commands: &[Command], starts: &[usize]) -> Result<(), Refusal> {
    let mut bounds: Vec<i64> = Vec::with_capacity(commands.len());
    for (command, start) in commands.iter().zip(starts) {
        let b = |operand: u8| bounds[operand as usize];
        let bound = match *command {
            Command::Field(_) => 255,
            Command::Number(n) => n as i64,
            Command::Add(x, y) | Command::Subtract(x, y) => b(x) + b(y),
            Command::Multiply(x, y) => b(x) * b(y),
            Command::Less(..) | Command::Equal(..) | Command::And(..) | Command::Or(..) | Command::Not(_) => 1,
            Command::If(_, x, y) => b(x).max(b(y)),
        };
        if bound > GREATEST_BOUND {
            return Err(Refusal::Bound(*start));
        }
        bounds.push(bound);
    }
    Ok(())
}

struct Reader<'a> {
    bytes: &'a [u8],
    place: usize,
    /// The fewest bytes that can complete the question from here.
    due: usize,
    commands: Vec<Command>,
    /// The place of each command's first byte.
    starts: Vec<usize>,
}

impl Reader<'_> {
    /// Reads a question and gives its place in the list of commands.
    fn question(&mut self) -> Result<u8, Refusal> {
        let start = self.place;
        let letter = self.byte()?;
        let command = match letter {
            b'f' => {
                self.need(start, 1)?;
                let k = self.byte()?;
                if k > 3 {
                    return Err(Refusal::Unreadable(start + 1));
                }
                self.due -= 1;
                Command::Field(k)
            }
            b'c' => {
                self.need(start, 2)?;
                let high = self.byte()?;
                let low = self.byte()?;
                self.due -= 2;
                Command::Number(u16::from_be_bytes([high, low]))
            }
            b'!' => {
                self.need(start, SHORTEST)?;
                Command::Not(self.question()?)
            }
            b'?' => {
                self.need(start, 3 * SHORTEST)?;
                Command::If(self.question()?, self.question()?, self.question()?)
            }
            b'+' | b'-' | b'*' | b'<' | b'=' | b'&' | b'|' => {
                self.need(start, 2 * SHORTEST)?;
                let (a, b) = (self.question()?, self.question()?);
                match letter {
                    b'+' => Command::Add(a, b),
                    b'-' => Command::Subtract(a, b),
                    b'*' => Command::Multiply(a, b),
                    b'<' => Command::Less(a, b),
                    b'=' => Command::Equal(a, b),
                    b'&' => Command::And(a, b),
                    _ => Command::Or(a, b),
                }
            }
            _ => return Err(Refusal::Unreadable(start)),
        };
        self.commands.push(command);
        self.starts.push(start);
        Ok((self.commands.len() - 1) as u8)
    }

    fn byte(&mut self) -> Result<u8, Refusal> {
        let byte = *self.bytes.get(self.place).ok_or(Refusal::Unreadable(self.bytes.len()))?;
        self.place += 1;
        Ok(byte)
    }

    /// A command at `start` took the place of a due question, and its operands need at least `bytes`. If then no whole
    /// question of at most 64 bytes can come of it, the command cannot stand where it stands.
    fn need(&mut self, start: usize, bytes: usize) -> Result<(), Refusal> {
        self.due = self.due - SHORTEST + bytes;
        if CONTINUED_WITHIN_LONGEST && start + 1 + self.due > LONGEST {
            return Err(Refusal::Unreadable(start));
        }
        Ok(())
    }
}

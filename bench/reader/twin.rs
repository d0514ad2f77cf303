// A reader of program texts as a Rust programmer would write it, with no thought of proofs.
// It keeps the same table of commands as the proved one, and answers the same number.

#[derive(Clone, Copy)]
pub struct Activity {
    pub number: u8,
    pub parameter: u16,
}

#[derive(Clone, Copy)]
pub enum Command {
    C(Activity),
    P(Activity),
    R(Activity),
    Open,
    Bar,
    Close,
    Stop,
}

#[derive(Clone, Copy)]
pub enum Fault {
    TooLong = 1,
    Misplaced = 2,
    CutOff = 3,
    TooManySteps = 4,
    TooDeep = 5,
    Trailing = 6,
}

pub struct Program {
    pub commands: [Command; 255],
    pub len: usize,
}

type Refused = (Fault, usize);

struct Reader<'a> {
    text: &'a [u8],
    at: usize,
    steps: usize,
    program: Program,
}

impl Reader<'_> {
    fn refuse<T>(&self, fault: Fault) -> Result<T, Refused> {
        Err((fault, self.at))
    }

    fn peek(&self) -> Option<u8> {
        self.text.get(self.at).copied()
    }

    fn push(&mut self, command: Command, width: usize) {
        self.program.commands[self.program.len] = command;
        self.program.len += 1;
        self.at += width;
    }

    fn step(&mut self, kind: fn(Activity) -> Command) -> Result<(), Refused> {
        if self.steps == 32 {
            return self.refuse(Fault::TooManySteps);
        }
        let Some(&[number, high, low]) = self.text.get(self.at + 1..self.at + 4).map(|s| <&[u8; 3]>::try_from(s).unwrap()) else {
            return self.refuse(Fault::CutOff);
        };
        self.steps += 1;
        self.push(kind(Activity { number, parameter: u16::from_be_bytes([high, low]) }), 4);
        Ok(())
    }

    fn expect(&mut self, mark: u8, command: Command) -> Result<(), Refused> {
        match self.peek() {
            None => self.refuse(Fault::CutOff),
            Some(b) if b == mark => {
                self.push(command, 1);
                Ok(())
            }
            Some(_) => self.refuse(Fault::Misplaced),
        }
    }

    fn body(&mut self, depth: usize) -> Result<(), Refused> {
        while self.peek() == Some(b'C') {
            self.step(Command::C)?;
        }
        if self.peek() == Some(b'P') {
            self.step(Command::P)?;
            if self.peek() == Some(b'[') && depth == 4 {
                return self.refuse(Fault::TooDeep);
            }
            self.expect(b'[', Command::Open)?;
            self.choices(depth)?;
            self.expect(b']', Command::Close)?;
        }
        Ok(())
    }

    fn choices(&mut self, depth: usize) -> Result<(), Refused> {
        while !matches!(self.peek(), Some(b'R' | b']')) {
            self.body(depth + 1)?;
            self.expect(b'|', Command::Bar)?;
        }
        while self.peek() == Some(b'R') {
            self.step(Command::R)?;
        }
        Ok(())
    }
}

pub fn read(text: &[u8]) -> Result<Program, Refused> {
    if text.len() > 255 {
        return Err((Fault::TooLong, 255));
    }
    let program = Program { commands: [Command::Stop; 255], len: 0 };
    let mut reader = Reader { text, at: 0, steps: 0, program };
    reader.body(0)?;
    reader.expect(b'.', Command::Stop)?;
    if reader.at < text.len() {
        return reader.refuse(Fault::Trailing);
    }
    Ok(reader.program)
}

#[inline(never)]
pub fn check(text: &[u8]) -> u32 {
    match read(text) {
        Ok(_) => 0,
        Err((fault, place)) => fault as u32 * 65536 + place as u32,
    }
}

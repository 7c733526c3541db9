//! Scripts: what they declare, and how they are read (docs/formats.md, "Scripts").
//!
//! The reading makes two passes over the lines. The first one collects the names, since a name may be used before its
//! declaration. The second one reads each line. A script that is refused gives `None`, whatever is wrong with it.

use std::collections::HashMap;

#[derive(Clone, Copy, PartialEq)]
pub enum Mode {
    Kernel,
    User,
}

#[derive(Clone, Copy, PartialEq)]
pub enum Importance {
    Low,
    Medium,
    MediumHigh,
    High,
}

#[derive(Clone, Copy, PartialEq)]
pub enum ApcKind {
    Special,
    Normal,
    User,
}

/// A command, with the places of the things that it names.
#[derive(Clone, Copy)]
pub enum Command {
    Raise(u8),
    Lower(u8),
    Queue(usize),
    Unqueue(usize),
    Importance(usize, Importance),
    Target(usize, Option<usize>),
    SetTimer { timer: usize, due: u32, period: u32 },
    CancelTimer(usize),
    Apc(usize),
    Unapc(usize),
    EnterCrit,
    EnterGuard,
    LeaveCrit,
    LeaveGuard,
    Wait { mode: Mode, alertable: bool },
    Delay { mode: Mode, alertable: bool, units: u32 },
    Release(usize),
    Alert(usize, Mode),
    TestAlert(Mode),
    Interrupt { cpu: usize, level: u8 },
    Clock(u32),
    ToUser,
    Yield,
    Acquire(usize),
    Unlock(usize),
    Note,
}

/// A line of a routine: the command, and its text for the report.
pub struct Line<'a> {
    pub command: Command,
    pub text: &'a [u8],
}

/// A routine is a range of the script's lines.
#[derive(Clone, Copy, Default)]
pub struct Routine {
    pub start: usize,
    pub end: usize,
}

pub struct Dpc<'a> {
    pub name: &'a [u8],
    pub routine: usize,
    /// It was declared as threaded, and threaded DPCs are on.
    pub threaded: bool,
}

pub struct Timer<'a> {
    pub name: &'a [u8],
    pub dpc: Option<usize>,
}

pub struct Thread<'a> {
    pub name: &'a [u8],
    pub cpu: usize,
    pub routine: usize,
}

pub struct Apc<'a> {
    pub name: &'a [u8],
    pub kind: ApcKind,
    pub thread: usize,
    pub kernel: usize,
    pub normal: Option<usize>,
    pub rundown: Option<usize>,
}

#[derive(Default)]
pub struct Script<'a> {
    pub cpus: usize,
    pub depth: usize,
    /// The routines of interrupts, by processor and level.
    pub isrs: Vec<[Option<usize>; 16]>,
    pub dpcs: Vec<Dpc<'a>>,
    pub timers: Vec<Timer<'a>>,
    pub threads: Vec<Thread<'a>>,
    pub apcs: Vec<Apc<'a>>,
    pub locks: Vec<&'a [u8]>,
    pub routines: Vec<Routine>,
    pub lines: Vec<Line<'a>>,
}

/// The names of a script: the part that declares each, and its place among those of the part.
type Names<'a> = HashMap<&'a [u8], (Part, usize)>;

/// The parts of a script in their order; each stands for the part to which the last line belonged.
#[derive(Clone, Copy, PartialEq, PartialOrd)]
enum Part {
    Start,
    Version,
    Cpus,
    Depth,
    Threaded,
    Isrs,
    Dpcs,
    Timers,
    Threads,
    Apcs,
    Locks,
    Routines,
    InRoutine,
}

/// The fields of a line from left to right.
struct Fields<'a, 'n> {
    rest: Option<&'a [u8]>,
    names: &'n Names<'a>,
    cpus: usize,
}

/// A number as it stands in a text: decimal, without leading zeros, and at most `most`.
pub fn number(field: &[u8], most: u32) -> Option<u32> {
    if field.is_empty() || field.len() > 10 || (field.len() > 1 && field[0] == b'0') {
        return None;
    }
    let mut value: u64 = 0;
    for &byte in field {
        if !byte.is_ascii_digit() {
            return None;
        }
        value = value * 10 + u64::from(byte - b'0');
    }
    (value <= u64::from(most)).then_some(value as u32)
}

fn is_name(field: &[u8]) -> bool {
    let is_letter = |b: &u8| b.is_ascii_lowercase() || b.is_ascii_digit() || *b == b'_';
    (1..=16).contains(&field.len()) && field.iter().all(is_letter)
}

impl<'a> Fields<'a, '_> {
    fn next(&mut self) -> Option<&'a [u8]> {
        let rest = self.rest?;
        match rest.iter().position(|&b| b == b' ') {
            Some(space) => {
                self.rest = Some(&rest[space + 1..]);
                Some(&rest[..space])
            }
            None => {
                self.rest = None;
                Some(rest)
            }
        }
    }

    fn number(&mut self, most: u32) -> Option<u32> {
        number(self.next()?, most)
    }

    fn cpu(&mut self) -> Option<usize> {
        Some(self.number(self.cpus as u32 - 1)? as usize)
    }

    fn level(&mut self) -> Option<u8> {
        Some(self.number(15)? as u8)
    }

    /// A level that may be requested: of a device, or between processors.
    fn requested_level(&mut self) -> Option<u8> {
        self.level().filter(|&level| (3..=11).contains(&level) || level == 14)
    }

    fn isr_level(&mut self) -> Option<u8> {
        self.level().filter(|&level| (3..=11).contains(&level) || level == 13 || level == 14)
    }

    fn named(&self, field: &[u8], part: Part) -> Option<usize> {
        self.names.get(field).filter(|found| found.0 == part).map(|found| found.1)
    }

    fn used(&mut self, part: Part) -> Option<usize> {
        let field = self.next()?;
        self.named(field, part)
    }

    /// A name, or `-` for none.
    fn used_or_none(&mut self, part: Part) -> Option<Option<usize>> {
        let field = self.next()?;
        if field == b"-" {
            Some(None)
        } else {
            Some(Some(self.named(field, part)?))
        }
    }

    fn mode(&mut self) -> Option<Mode> {
        match self.next()? {
            b"kernel" => Some(Mode::Kernel),
            b"user" => Some(Mode::User),
            _ => None,
        }
    }

    fn alertable(&mut self) -> Option<bool> {
        match self.next()? {
            b"plain" => Some(false),
            b"alertable" => Some(true),
            _ => None,
        }
    }

    fn importance(&mut self) -> Option<Importance> {
        match self.next()? {
            b"low" => Some(Importance::Low),
            b"medium" => Some(Importance::Medium),
            b"mediumhigh" => Some(Importance::MediumHigh),
            b"high" => Some(Importance::High),
            _ => None,
        }
    }

    fn target(&mut self) -> Option<Option<usize>> {
        let field = self.next()?;
        if field == b"own" {
            Some(None)
        } else {
            Some(Some(number(field, self.cpus as u32 - 1)? as usize))
        }
    }
}

/// The command whose first field is the word: those that name no thread, APC or lock.
fn command(word: &[u8], fields: &mut Fields) -> Option<Command> {
    Some(match word {
        b"raise" => Command::Raise(fields.level()?),
        b"lower" => Command::Lower(fields.level()?),
        b"queue" => Command::Queue(fields.used(Part::Dpcs)?),
        b"unqueue" => Command::Unqueue(fields.used(Part::Dpcs)?),
        b"importance" => Command::Importance(fields.used(Part::Dpcs)?, fields.importance()?),
        b"target" => Command::Target(fields.used(Part::Dpcs)?, fields.target()?),
        b"settimer" => Command::SetTimer {
            timer: fields.used(Part::Timers)?,
            due: fields.number(u32::MAX)?,
            period: fields.number(u32::MAX)?,
        },
        b"canceltimer" => Command::CancelTimer(fields.used(Part::Timers)?),
        b"interrupt" => Command::Interrupt { cpu: fields.cpu()?, level: fields.requested_level()? },
        b"clock" => Command::Clock(fields.number(u32::MAX)?),
        b"note" => {
            fields.number(u32::MAX)?;
            Command::Note
        }
        _ => return thread_command(word, fields),
    })
}

/// The other commands.
fn thread_command(word: &[u8], fields: &mut Fields) -> Option<Command> {
    Some(match word {
        b"apc" => Command::Apc(fields.used(Part::Apcs)?),
        b"unapc" => Command::Unapc(fields.used(Part::Apcs)?),
        b"entercrit" => Command::EnterCrit,
        b"enterguard" => Command::EnterGuard,
        b"leavecrit" => Command::LeaveCrit,
        b"leaveguard" => Command::LeaveGuard,
        b"wait" => Command::Wait { mode: fields.mode()?, alertable: fields.alertable()? },
        b"delay" => {
            Command::Delay { mode: fields.mode()?, alertable: fields.alertable()?, units: fields.number(u32::MAX)? }
        }
        b"release" => Command::Release(fields.used(Part::Threads)?),
        b"alert" => Command::Alert(fields.used(Part::Threads)?, fields.mode()?),
        b"testalert" => Command::TestAlert(fields.mode()?),
        b"touser" => Command::ToUser,
        b"yield" => Command::Yield,
        b"acquire" => Command::Acquire(fields.used(Part::Locks)?),
        b"unlock" => Command::Unlock(fields.used(Part::Locks)?),
        _ => return None,
    })
}

/// The part to which a line with this first word belongs, outside of routines.
fn part_of(word: &[u8]) -> Option<Part> {
    Some(match word {
        b"version" => Part::Version,
        b"cpus" => Part::Cpus,
        b"depth" => Part::Depth,
        b"threaded" => Part::Threaded,
        b"isr" => Part::Isrs,
        b"dpc" | b"tdpc" => Part::Dpcs,
        b"timer" => Part::Timers,
        b"thread" => Part::Threads,
        b"special" | b"normal" | b"user" => Part::Apcs,
        b"spinlock" => Part::Locks,
        b"routine" => Part::Routines,
        _ => return None,
    })
}

/// The names that the lines declare, each once.
fn names_of<'a>(lines: &[&'a [u8]]) -> Option<Names<'a>> {
    let mut names = Names::new();
    let mut counts = [0; Part::InRoutine as usize];
    for line in lines {
        let mut fields = line.split(|&b| b == b' ');
        let Some(part) = fields.next().and_then(part_of).filter(|&part| part >= Part::Dpcs) else { continue };
        let name = fields.next().filter(|name| is_name(name))?;
        let place = &mut counts[part as usize];
        if names.insert(name, (part, *place)).is_some() {
            return None;
        }
        *place += 1;
    }
    Some(names)
}

impl Script<'_> {
    fn meets_limits(&self) -> bool {
        self.threads.len() <= 64
            && self.timers.len() <= 64
            && self.locks.len() <= 64
            && self.dpcs.len() <= 256
            && self.apcs.len() <= 256
            && self.routines.len() <= 256
            && self.lines.len() <= 8192
    }
}

/// What was read of a script so far.
struct Reader<'a> {
    script: Script<'a>,
    part: Part,
    version: u32,
    threaded: bool,
}

impl<'a> Reader<'a> {
    /// A line with this part may stand behind what was read.
    fn may_follow(&self, part: Part) -> bool {
        match self.part {
            Part::Start => part == Part::Version || part == Part::Cpus,
            Part::Version => part == Part::Cpus,
            Part::InRoutine => false,
            before => part > before || (part == before && part >= Part::Isrs),
        }
    }

    fn header_line(&mut self, part: Part, fields: &mut Fields) -> Option<()> {
        match part {
            Part::Version => self.version = fields.number(2).filter(|&n| n == 2)?,
            Part::Cpus => {
                let most = if self.version == 2 { 64 } else { 8 };
                self.script.cpus = fields.number(most).filter(|&n| n > 0)? as usize;
                self.script.isrs = vec![[None; 16]; self.script.cpus];
            }
            Part::Depth => self.script.depth = fields.number(256)? as usize,
            _ => {
                self.threaded = match fields.next()? {
                    b"on" => true,
                    b"off" => false,
                    _ => return None,
                }
            }
        }
        Some(())
    }

    fn declaration(&mut self, word: &[u8], part: Part, fields: &mut Fields<'a, '_>) -> Option<()> {
        let name = fields.next()?;
        let script = &mut self.script;
        match part {
            Part::Dpcs => {
                let threaded = word == b"tdpc" && self.threaded;
                script.dpcs.push(Dpc { name, routine: fields.used(Part::Routines)?, threaded });
            }
            Part::Timers => script.timers.push(Timer { name, dpc: fields.used_or_none(Part::Dpcs)? }),
            Part::Threads => {
                script.threads.push(Thread { name, cpu: fields.cpu()?, routine: fields.used(Part::Routines)? });
            }
            Part::Locks if self.version == 2 => script.locks.push(name),
            Part::Routines => {
                let start = script.lines.len();
                script.routines.push(Routine { start, end: start });
            }
            _ => return None,
        }
        Some(())
    }

    fn apc(&mut self, word: &[u8], fields: &mut Fields<'a, '_>) -> Option<()> {
        let kind = match word {
            b"special" => ApcKind::Special,
            b"normal" => ApcKind::Normal,
            _ => ApcKind::User,
        };
        let name = fields.next()?;
        let thread = fields.used(Part::Threads)?;
        let kernel = fields.used(Part::Routines)?;
        let normal = if kind == ApcKind::Special { None } else { Some(fields.used(Part::Routines)?) };
        let rundown = if kind == ApcKind::User { fields.used_or_none(Part::Routines)? } else { None };
        self.script.apcs.push(Apc { name, kind, thread, kernel, normal, rundown });
        Some(())
    }

    fn isr(&mut self, fields: &mut Fields) -> Option<()> {
        let (cpu, level) = (fields.cpu()?, fields.isr_level()?);
        let routine = fields.used(Part::Routines)?;
        let old = self.script.isrs[cpu][usize::from(level)].replace(routine);
        old.is_none().then_some(())
    }

    fn routine_line(&mut self, line: &'a [u8], word: &[u8], fields: &mut Fields) -> Option<()> {
        if word == b"exit" {
            self.script.routines.last_mut()?.end = self.script.lines.len();
            self.part = Part::Routines;
            return Some(());
        }
        if self.version == 1 && (word == b"acquire" || word == b"unlock") {
            return None;
        }
        self.script.lines.push(Line { command: command(word, fields)?, text: line });
        Some(())
    }

    fn line(&mut self, line: &'a [u8], names: &Names<'a>) -> Option<()> {
        let mut fields = Fields { rest: Some(line), names, cpus: self.script.cpus };
        let word = fields.next()?;
        if self.part == Part::InRoutine {
            self.routine_line(line, word, &mut fields)?;
        } else {
            let part = part_of(word).filter(|&part| self.may_follow(part))?;
            match part {
                Part::Version | Part::Cpus | Part::Depth | Part::Threaded => self.header_line(part, &mut fields)?,
                Part::Isrs => self.isr(&mut fields)?,
                Part::Apcs => self.apc(word, &mut fields)?,
                _ => self.declaration(word, part, &mut fields)?,
            }
            self.part = if part == Part::Routines { Part::InRoutine } else { part };
        }
        fields.rest.is_none().then_some(())
    }
}

/// The script that the bytes are, where they are one.
pub fn read(bytes: &[u8]) -> Option<Script<'_>> {
    if !bytes.iter().all(|&b| b == b'\n' || (32..=126).contains(&b)) {
        return None;
    }
    let lines: Vec<&[u8]> = bytes.strip_suffix(b"\n")?.split(|&b| b == b'\n').collect();
    let names = names_of(&lines)?;
    let script = Script { cpus: 1, depth: 4, ..Script::default() };
    let mut reader = Reader { script, part: Part::Start, version: 1, threaded: true };
    for line in lines {
        reader.line(line, &names)?;
    }
    let ended = reader.part >= Part::Cpus && reader.part != Part::InRoutine;
    (ended && reader.script.meets_limits()).then_some(reader.script)
}

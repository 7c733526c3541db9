//! What the machine keeps: processors, frames, threads, DPC objects, timers and spin locks (docs/machine.md).

use std::collections::VecDeque;

use crate::script::{ApcKind, Importance, Mode, Routine};

pub const SATISFIED: u16 = 0;
pub const USER_APC: u16 = 0xc0;
pub const KERNEL_APC: u16 = 0x100;
pub const ALERTED: u16 = 0x101;

pub const THREADED_CLASS: usize = 0;
pub const APC_CLASS: usize = 1;
pub const DISPATCH_CLASS: usize = 2;
pub const LOCK_CLASS: usize = 12;
pub const CLOCK_CLASS: usize = 13;

/// The classes that are interrupts: 3 to 11, 13 and 14.
const INTERRUPTS: u32 = 0b0110_1111_1111_1000;

#[derive(Clone, Copy, PartialEq)]
pub enum Refusal {
    NotThread = 1,
    NotBase,
    TooHigh,
    RegionsOpen,
    NotGreater,
    NotLess,
    BelowBase,
    NotEntered,
    LockHeld,
    HeldHere,
    NotLast,
}

#[derive(Clone, Copy, PartialEq)]
pub enum Reply {
    Done,
    Yes,
    No,
    Status(u16),
    Blocked,
    Spin,
    Refused(Refusal),
}

/// What an event did. A frame, and what a thing was used up `from`, is the number of an event.
#[derive(Clone, Copy, PartialEq)]
pub enum What {
    Call { frame: u32, line: usize, reply: Reply },
    Interrupt { level: u8, from: u32 },
    Dpc { dpc: usize, from: u32 },
    Apc { apc: usize, from: u32 },
    Normal(u32),
    End(u32),
    Timer { timer: usize, from: u32 },
    Delay { thread: usize, from: u32 },
    Fire { dpc: usize, reply: Reply },
    Clean(usize),
    Switch { thread: usize, status: Option<u16> },
    Rewait { frame: u32, reply: Reply },
    Flush { apc: usize, from: u32 },
    Gone(usize),
    Free { frame: u32, lock: usize },
    Rest,
}

#[derive(Clone, Copy, PartialEq)]
pub enum Body {
    Interrupt,
    Dpc,
    Threaded,
    Apc(usize, ApcKind),
    Base,
    Rundown,
}

/// A wait that is to be taken up again; of a delay with its due time.
#[derive(Clone, Copy)]
pub struct Wait {
    pub mode: Mode,
    pub alertable: bool,
    pub due: Option<u64>,
}

/// A routine that runs.
#[derive(Clone, Copy)]
pub struct Frame {
    /// The number of the event that began it.
    pub name: u32,
    pub body: Body,
    pub base: u8,
    pub level: u8,
    pub kernel_phase: bool,
    pub leaving: bool,
    /// The next line, and the end of the routine.
    pub next: usize,
    pub end: usize,
    pub crit: u32,
    pub guard: u32,
    pub again: Option<Wait>,
    /// The frame spins; the level is the one before the first try.
    pub spin: Option<u8>,
}

#[derive(Default)]
pub struct Cpu {
    pub made: u32,
    pub level: u8,
    /// The frames on its own part.
    pub own: Vec<Frame>,
    pub running: Option<usize>,
    pub took: Option<usize>,
    /// The greatest value asked in each class.
    pub asked: [u32; 16],
    /// The classes in which something was asked and not seen, one bit each.
    pub behind: u32,
    /// The classes in which something was seen and not served.
    pub pending: u32,
    pub sweep: bool,
    pub fire: Option<usize>,
    pub rested: bool,
    pub idle: bool,
    pub ordinary: VecDeque<usize>,
    pub threaded: VecDeque<usize>,
    /// The locks that a frame of it holds, the one acquired last at the end. No second frame holds one meanwhile: only
    /// interrupts begin above the first one, and they stand too high for `acquire`.
    pub held: Vec<usize>,
    /// The lock and the number of its last call with reply spin.
    pub last_spin: Option<(usize, u32)>,
}

/// A pending insert of a DPC object.
#[derive(Clone, Copy)]
pub struct Standing {
    pub queue: usize,
    pub number: u32,
}

pub struct Object {
    pub importance: Importance,
    pub target: Option<usize>,
    pub standing: Option<Standing>,
}

#[derive(Clone, Copy)]
pub struct Regions {
    pub crit: u32,
    pub guard: u32,
    /// A normal kernel APC is in progress.
    pub busy: bool,
}

#[derive(Clone, Copy)]
pub struct Blocked {
    pub event: u32,
    pub mode: Mode,
    pub alertable: bool,
    pub delay: bool,
    pub level: u8,
    pub regions: Regions,
}

#[derive(Clone, Copy)]
pub enum Doing {
    Ready(Option<u16>),
    Running,
    Blocked(Blocked),
    Gone,
}

pub struct Thread {
    pub frames: Vec<Frame>,
    pub doing: Doing,
    /// The alerted flags, by mode.
    pub alerted: [bool; 2],
    pub user_pending: bool,
    pub released: bool,
    /// It takes no more APCs.
    pub closed: bool,
    /// The APC objects that are inserted, by kind.
    pub apcs: [VecDeque<usize>; 3],
}

#[derive(Clone, Copy)]
pub struct Setting {
    pub due: u64,
    pub number: u32,
    pub period: u32,
}

#[derive(Clone, Copy)]
pub struct Lock {
    /// The frame that holds it, and the level that is kept.
    pub holder: Option<u32>,
    pub kept: u8,
    /// The processors that spin on it, one bit each.
    pub spinners: u64,
}

pub fn yes_if(test: bool) -> Reply {
    if test {
        Reply::Yes
    } else {
        Reply::No
    }
}

impl Frame {
    pub fn new(name: u32, body: Body, base: u8, routine: Routine) -> Self {
        Frame {
            name,
            body,
            base,
            level: base,
            kernel_phase: matches!(body, Body::Apc(..)),
            leaving: false,
            next: routine.start,
            end: routine.end,
            crit: 0,
            guard: 0,
            again: None,
            spin: None,
        }
    }

    /// The frame begins anew at level 0, and its regions are given up.
    pub fn restart(&mut self, routine: Routine) {
        *self = Frame::new(self.name, self.body, 0, routine);
        self.kernel_phase = false;
    }
}

impl Object {
    pub fn new() -> Self {
        Object { importance: Importance::Medium, target: None, standing: None }
    }
}

impl Cpu {
    /// A bit of each interrupt that is pending and above the level.
    pub fn interrupts(&self) -> u32 {
        self.pending & INTERRUPTS & (!1 << self.level)
    }

    pub fn is_pending(&self, class: usize) -> bool {
        self.pending & 1 << class != 0
    }

    pub fn serve(&mut self, class: usize) {
        self.pending &= !(1 << class);
    }
}

impl Thread {
    pub fn new() -> Self {
        Thread {
            frames: Vec::with_capacity(4),
            doing: Doing::Ready(None),
            alerted: [false; 2],
            user_pending: false,
            released: false,
            closed: false,
            apcs: Default::default(),
        }
    }

    pub fn regions(&self) -> Regions {
        regions_of(&self.frames)
    }

    /// The regions once the innermost frame has ended.
    pub fn regions_below(&self) -> Regions {
        regions_of(&self.frames[..self.frames.len() - 1])
    }

    pub fn has_kernel_apc(&self) -> bool {
        !self.apcs[ApcKind::Special as usize].is_empty() || !self.apcs[ApcKind::Normal as usize].is_empty()
    }

    pub fn first_user_apc(&self) -> Option<usize> {
        self.apcs[ApcKind::User as usize].front().copied()
    }

    /// The first kernel APC, where it may be delivered at this level and in these regions.
    pub fn deliverable(&self, level: u8, regions: Regions) -> Option<usize> {
        if level > 0 || regions.guard > 0 {
            return None;
        }
        match self.apcs[ApcKind::Special as usize].front() {
            Some(&apc) => Some(apc),
            None if regions.crit > 0 || regions.busy => None,
            None => self.apcs[ApcKind::Normal as usize].front().copied(),
        }
    }

    /// The test of an alert: the old flag, which is cleared; where it was clear, a user APC sets the user-pending mark.
    pub fn test_alert(&mut self, mode: Mode) -> bool {
        let old = std::mem::replace(&mut self.alerted[mode as usize], false);
        if !old && mode == Mode::User && self.first_user_apc().is_some() {
            self.user_pending = true;
        }
        old
    }
}

pub fn regions_of(frames: &[Frame]) -> Regions {
    let mut regions = Regions { crit: 0, guard: 0, busy: false };
    for frame in frames {
        regions.crit += frame.crit;
        regions.guard += frame.guard;
        regions.busy |= matches!(frame.body, Body::Apc(_, ApcKind::Normal));
    }
    regions
}

impl Regions {
    /// A count that wasn't 0 is 0 in the other regions.
    pub fn came_to_0(&self, after: Regions) -> bool {
        (self.crit > 0 && after.crit == 0) || (self.guard > 0 && after.guard == 0)
    }
}

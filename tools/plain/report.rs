//! The text of a report, and of its schedule (docs/formats.md, "Reports", "Schedules").

use crate::script::{ApcKind, Script};
use crate::state::{Reply, What};

pub struct Report<'a> {
    script: &'a Script<'a>,
    events: Vec<u8>,
    schedule: Vec<u8>,
    /// For each processor its field in the line of an event, and the line of its turn `next`.
    fields: Vec<(String, String)>,
}

fn put(text: &mut Vec<u8>, word: &str) {
    text.extend_from_slice(word.as_bytes());
}

/// The refusals by their numbers, from 1.
const REFUSALS: [&str; 11] = [
    "1 NotThread",
    "2 NotBase",
    "3 TooHigh",
    "4 RegionsOpen",
    "5 NotGreater",
    "6 NotLess",
    "7 BelowBase",
    "8 NotEntered",
    "9 LockHeld",
    "10 HeldHere",
    "11 NotLast",
];

/// The numbers below 100 in two digits each.
const PAIRS: &[u8; 200] = b"00010203040506070809101112131415161718192021222324252627282930313233343536373839\
    40414243444546474849505152535455565758596061626364656667686970717273747576777879\
    8081828384858687888990919293949596979899";

fn put_number(text: &mut Vec<u8>, mut number: u32) {
    if number < 10 {
        text.push(b'0' + number as u8);
        return;
    }
    let mut digits = [0; 10];
    let mut start = digits.len();
    while number >= 10 {
        let pair = (number % 100) as usize * 2;
        number /= 100;
        start -= 2;
        digits[start..start + 2].copy_from_slice(&PAIRS[pair..pair + 2]);
    }
    if number > 0 {
        start -= 1;
        digits[start] = b'0' + number as u8;
    }
    text.extend_from_slice(&digits[start..]);
}

fn put_status(text: &mut Vec<u8>, status: u16) {
    put(text, &format!("status {status:x}"));
}

fn put_reply(text: &mut Vec<u8>, reply: Reply) {
    put(text, " -> ");
    match reply {
        Reply::Done => put(text, "done"),
        Reply::Yes => put(text, "yes"),
        Reply::No => put(text, "no"),
        Reply::Status(status) => put_status(text, status),
        Reply::Blocked => put(text, "blocked"),
        Reply::Spin => put(text, "spin"),
        Reply::Refused(refusal) => {
            put(text, "refused ");
            put(text, REFUSALS[refusal as usize - 1]);
        }
    }
}

/// A word, and the number of an event.
fn put_numbered(text: &mut Vec<u8>, word: &str, number: u32) {
    put(text, word);
    put_number(text, number);
}

/// A word, a name, and the number of the event that is used up.
fn put_named(text: &mut Vec<u8>, word: &str, name: &[u8], from: u32) {
    put(text, word);
    text.extend_from_slice(name);
    put_numbered(text, " of ", from);
}

impl<'a> Report<'a> {
    pub fn new(script: &'a Script<'a>) -> Self {
        let fields = (0..script.cpus).map(|p| (format!(" p{p} "), format!("next {p}\n"))).collect();
        Report { script, events: b"report\n".to_vec(), schedule: Vec::new(), fields }
    }

    /// A look in these classes, one bit each.
    pub fn look(&mut self, p: usize, classes: u32, asked: &[u32; 16]) {
        let text = &mut self.schedule;
        put_numbered(text, "look ", p as u32);
        for (class, &value) in asked.iter().enumerate() {
            if classes & 1 << class != 0 {
                put_numbered(text, " ", class as u32);
                put_numbered(text, "=", value);
            }
        }
        text.push(b'\n');
    }

    /// Another event: the thread is the one that ran before it, the level is the one after it.
    pub fn event(&mut self, number: u32, p: usize, running: Option<usize>, level: u8, what: &What) {
        let thread = if let What::Switch { thread, .. } = what { Some(*thread) } else { running };
        let name = thread.map_or(&b"-"[..], |t| self.script.threads[t].name);
        let (field, next) = &self.fields[p];
        let text = &mut self.events;
        put_number(text, number);
        put(text, field);
        text.extend_from_slice(name);
        text.push(b' ');
        put_number(text, u32::from(level));
        if let What::Switch { .. } = what {
            put_numbered(&mut self.schedule, "switch ", p as u32);
            self.schedule.push(b' ');
            self.schedule.extend_from_slice(name);
            self.schedule.push(b'\n');
        } else {
            put(&mut self.schedule, next);
        }
        self.put_what(what);
        self.events.push(b'\n');
    }

    fn put_what(&mut self, what: &What) {
        let script = self.script;
        let text = &mut self.events;
        match *what {
            What::Call { frame, line, reply } => {
                put_numbered(text, " call ", frame);
                text.push(b' ');
                text.extend_from_slice(script.lines[line].text);
                put_reply(text, reply);
            }
            What::Normal(frame) => put_numbered(text, " normal ", frame),
            What::End(frame) => put_numbered(text, " end ", frame),
            What::Fire { dpc, reply } => {
                put(text, " fire ");
                text.extend_from_slice(script.dpcs[dpc].name);
                put_reply(text, reply);
            }
            What::Clean(class) => put_numbered(text, " clean ", class as u32),
            What::Switch { thread, status } => {
                put(text, " switch ");
                text.extend_from_slice(script.threads[thread].name);
                if let Some(status) = status {
                    text.push(b' ');
                    put_status(text, status);
                }
            }
            What::Rewait { frame, reply } => {
                put_numbered(text, " rewait ", frame);
                put_reply(text, reply);
            }
            What::Gone(thread) => {
                put(text, " gone ");
                text.extend_from_slice(script.threads[thread].name);
            }
            What::Free { frame, lock } => {
                put_numbered(text, " free ", frame);
                text.push(b' ');
                text.extend_from_slice(script.locks[lock]);
            }
            What::Rest => put(text, " rest"),
            _ => self.put_use(what),
        }
    }

    /// An event that uses up an insert, an ask or a setting.
    fn put_use(&mut self, what: &What) {
        let script = self.script;
        let text = &mut self.events;
        match *what {
            What::Interrupt { level, from } => {
                put_numbered(text, " begin int ", u32::from(level));
                put_numbered(text, " of ", from);
            }
            What::Dpc { dpc, from } => {
                let dpc = &script.dpcs[dpc];
                put_named(text, if dpc.threaded { " begin threaded " } else { " begin dpc " }, dpc.name, from);
            }
            What::Apc { apc, from } => {
                let apc = &script.apcs[apc];
                let word = match apc.kind {
                    ApcKind::Special => " begin special ",
                    ApcKind::Normal => " begin normal ",
                    ApcKind::User => " begin user ",
                };
                put_named(text, word, apc.name, from);
            }
            What::Timer { timer, from } => put_named(text, " expire timer ", script.timers[timer].name, from),
            What::Delay { thread, from } => put_named(text, " expire delay ", script.threads[thread].name, from),
            What::Flush { apc, from } => put_named(text, " flush ", script.apcs[apc].name, from),
            _ => unreachable!("the event uses up nothing"),
        }
    }

    pub fn cut(&mut self, p: usize) {
        put_numbered(&mut self.events, "cut p", p as u32);
        self.events.push(b'\n');
    }

    pub fn spins(&mut self, p: usize, lock: usize, number: u32) {
        put_numbered(&mut self.events, "spins p", p as u32);
        put_named(&mut self.events, " ", self.script.locks[lock], number);
        self.events.push(b'\n');
    }

    pub fn waits(&mut self, number: u32, what: &str, name: &[u8]) {
        put_numbered(&mut self.events, "waits ", number);
        put(&mut self.events, what);
        self.events.extend_from_slice(name);
        self.events.push(b'\n');
    }

    /// The whole text, with the schedule behind the events.
    pub fn finish(mut self, limit: u32) -> Vec<u8> {
        put_numbered(&mut self.events, "schedule ", limit);
        self.events.push(b'\n');
        self.events.append(&mut self.schedule);
        put(&mut self.events, "done\n");
        self.events
    }
}

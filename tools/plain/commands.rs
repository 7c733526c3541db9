//! The commands: where each is refused, and what it does (docs/machine.md, "Commands", "Threads and waits").

use crate::machine::Machine;
use crate::script::{ApcKind, Command, Importance, Mode};
use crate::state::*;

fn refuse(test: bool, refusal: Refusal) -> Option<Refusal> {
    test.then_some(refusal)
}

impl Machine<'_> {
    pub fn running(&self, p: usize) -> usize {
        self.cpus[p].running.expect("a thread runs")
    }

    /// The refusal of a command of the innermost frame. The tests come in the order of the refusals' numbers.
    pub fn refusal(&self, p: usize, frame: &Frame, command: Command) -> Option<Refusal> {
        use Refusal::*;
        let level = frame.level;
        let too_high = |most: u8| refuse(level > most, TooHigh);
        let not_thread = || refuse(!self.cpus[p].own.is_empty(), NotThread);
        match command {
            Command::Raise(l) => refuse(l < level, NotGreater),
            Command::Lower(l) => refuse(l > level, NotLess)
                .or_else(|| refuse(l < frame.base, BelowBase))
                .or_else(|| refuse(l < 2 && self.last_held(p, frame).is_some(), LockHeld)),
            Command::SetTimer { .. } | Command::CancelTimer(_) => too_high(2),
            Command::Apc(_) | Command::Unapc(_) | Command::Release(_) | Command::Alert(..) => too_high(2),
            Command::EnterCrit | Command::EnterGuard => not_thread().or_else(|| too_high(1)),
            Command::Wait { .. } | Command::Delay { .. } | Command::Yield => not_thread().or_else(|| too_high(1)),
            Command::LeaveCrit => not_thread().or_else(|| too_high(1)).or_else(|| refuse(frame.crit == 0, NotEntered)),
            Command::LeaveGuard => {
                not_thread().or_else(|| too_high(1)).or_else(|| refuse(frame.guard == 0, NotEntered))
            }
            Command::TestAlert(_) => not_thread().or_else(|| too_high(2)),
            Command::ToUser => not_thread()
                .or_else(|| refuse(frame.body != Body::Base, NotBase))
                .or_else(|| too_high(0))
                .or_else(|| refuse(self.in_region(p), RegionsOpen)),
            Command::Acquire(x) => too_high(2).or_else(|| refuse(self.locks[x].holder == Some(frame.name), HeldHere)),
            Command::Unlock(x) => too_high(2).or_else(|| refuse(self.last_held(p, frame) != Some(x), NotLast)),
            Command::Queue(_) | Command::Unqueue(_) | Command::Importance(..) | Command::Target(..) => None,
            Command::Interrupt { .. } | Command::Clock(_) | Command::Note => None,
        }
    }

    /// The lock that the frame acquired last among those that it holds.
    fn last_held(&self, p: usize, frame: &Frame) -> Option<usize> {
        self.cpus[p].held.last().copied().filter(|&lock| self.locks[lock].holder == Some(frame.name))
    }

    /// The running thread has a region open.
    fn in_region(&self, p: usize) -> bool {
        let regions = self.threads[self.running(p)].regions();
        regions.crit > 0 || regions.guard > 0
    }

    /// What a command does that isn't refused, and its reply. The place in the routine has gone on already.
    pub fn act(&mut self, p: usize, command: Command) -> Reply {
        match command {
            Command::Raise(level) | Command::Lower(level) => self.frame(p).level = level,
            Command::Queue(dpc) => return self.insert_dpc(p, dpc),
            Command::Unqueue(dpc) => return self.remove_dpc(dpc),
            Command::Importance(dpc, importance) => self.objects[dpc].importance = importance,
            Command::Target(dpc, target) => self.objects[dpc].target = target,
            Command::SetTimer { timer, due, period } => return self.set_timer(p, timer, due, period),
            Command::CancelTimer(timer) => return yes_if(self.timers[timer].take().is_some()),
            Command::Apc(apc) => return self.insert_apc(p, apc),
            Command::Unapc(apc) => return self.remove_apc(apc),
            Command::Wait { mode, alertable } => return self.wait(p, Wait { mode, alertable, due: None }),
            Command::Delay { mode, alertable, units } => {
                let due = Some(self.now + u64::from(units));
                return self.wait(p, Wait { mode, alertable, due });
            }
            Command::Release(thread) => return self.release(p, thread),
            Command::Alert(thread, mode) => return self.alert(p, thread, mode),
            Command::TestAlert(mode) => {
                let thread = self.running(p);
                return yes_if(self.threads[thread].test_alert(mode));
            }
            Command::Interrupt { cpu, level } => self.ask(p, cpu, usize::from(level)),
            Command::Clock(units) => {
                self.now += u64::from(units);
                self.ask(p, p, CLOCK_CLASS);
            }
            Command::Acquire(lock) => return self.acquire(p, lock),
            Command::Unlock(_) => self.free(p),
            Command::EnterCrit | Command::EnterGuard => self.enter(p, command),
            Command::LeaveCrit | Command::LeaveGuard => self.leave(p, command),
            Command::Yield => self.give_way(p),
            Command::ToUser | Command::Note => (),
        }
        Reply::Done
    }

    fn enter(&mut self, p: usize, command: Command) {
        match command {
            Command::EnterCrit => self.frame(p).crit += 1,
            _ => self.frame(p).guard += 1,
        }
    }

    fn leave(&mut self, p: usize, command: Command) {
        let before = self.threads[self.running(p)].regions();
        match command {
            Command::LeaveCrit => self.frame(p).crit -= 1,
            _ => self.frame(p).guard -= 1,
        }
        if before.came_to_0(self.threads[self.running(p)].regions()) {
            self.ask(p, p, APC_CLASS);
        }
    }

    fn give_way(&mut self, p: usize) {
        let thread = self.running(p);
        self.threads[thread].doing = Doing::Ready(None);
        self.cpus[p].running = None;
    }

    /// Inserts the DPC object into a queue, and asks the queue's processor by the table of importance.
    pub fn insert_dpc(&mut self, p: usize, dpc: usize) -> Reply {
        let object = &mut self.objects[dpc];
        if object.standing.is_some() {
            return Reply::No;
        }
        let q = object.target.unwrap_or(p);
        object.standing = Some(Standing { queue: q, number: self.number });
        let threaded = self.script.dpcs[dpc].threaded;
        let cpu = &mut self.cpus[q];
        let queue = if threaded { &mut cpu.threaded } else { &mut cpu.ordinary };
        if object.importance == Importance::High {
            queue.push_front(dpc);
        } else {
            queue.push_back(dpc);
        }
        let deep = queue.len() > self.script.depth;
        let asks = match object.importance {
            Importance::Low => deep || (q != p && cpu.idle),
            Importance::Medium => q == p || deep || cpu.idle,
            Importance::MediumHigh | Importance::High => true,
        };
        if threaded {
            self.ask(p, q, THREADED_CLASS);
        } else if asks {
            self.ask(p, q, DISPATCH_CLASS);
        }
        Reply::Yes
    }

    fn remove_dpc(&mut self, dpc: usize) -> Reply {
        let Some(standing) = self.objects[dpc].standing.take() else { return Reply::No };
        let cpu = &mut self.cpus[standing.queue];
        let queue = if self.script.dpcs[dpc].threaded { &mut cpu.threaded } else { &mut cpu.ordinary };
        queue.retain(|&d| d != dpc);
        Reply::Yes
    }

    fn set_timer(&mut self, p: usize, timer: usize, due: u32, period: u32) -> Reply {
        let setting = Setting { due: self.now + u64::from(due), number: self.number, period };
        self.cpus[p].sweep |= due == 0;
        yes_if(self.timers[timer].replace(setting).is_some())
    }

    fn insert_apc(&mut self, p: usize, apc: usize) -> Reply {
        let declared = &self.script.apcs[apc];
        let t = declared.thread;
        let thread = &mut self.threads[t];
        if thread.closed || self.apcs[apc].is_some() {
            return Reply::No;
        }
        self.apcs[apc] = Some(self.number);
        thread.apcs[declared.kind as usize].push_back(apc);
        let waiting = if let Doing::Blocked(w) = thread.doing { Some(w) } else { None };
        if declared.kind == ApcKind::User {
            let ends = waiting.is_some_and(|w| w.mode == Mode::User && (w.alertable || thread.user_pending));
            if ends {
                thread.user_pending = true;
                self.end_wait(p, t, USER_APC);
            }
        } else {
            let ends = waiting.is_some_and(|w| thread.deliverable(w.level, w.regions).is_some());
            if ends {
                self.end_wait(p, t, KERNEL_APC);
            }
            self.ask(p, self.script.threads[t].cpu, APC_CLASS);
        }
        Reply::Yes
    }

    fn remove_apc(&mut self, apc: usize) -> Reply {
        if self.apcs[apc].is_none() {
            return Reply::No;
        }
        self.take_apc(self.script.apcs[apc].thread, apc);
        Reply::Yes
    }

    /// Takes an inserted APC out of its thread's queue, and gives the number of its insert.
    pub fn take_apc(&mut self, thread: usize, apc: usize) -> u32 {
        let kind = self.script.apcs[apc].kind as usize;
        self.threads[thread].apcs[kind].retain(|&a| a != apc);
        self.apcs[apc].take().expect("the APC is inserted")
    }

    /// The wait of the thread is over with this status, and its processor is asked for dispatch.
    pub fn end_wait(&mut self, by: usize, thread: usize, status: u16) {
        self.threads[thread].doing = Doing::Ready(Some(status));
        self.ask(by, self.script.threads[thread].cpu, DISPATCH_CLASS);
    }

    fn release(&mut self, p: usize, t: usize) -> Reply {
        let thread = &mut self.threads[t];
        match thread.doing {
            Doing::Blocked(w) if !w.delay => {
                self.end_wait(p, t, SATISFIED);
                return Reply::Yes;
            }
            Doing::Gone => (),
            _ => thread.released = true,
        }
        Reply::No
    }

    fn alert(&mut self, p: usize, t: usize, mode: Mode) -> Reply {
        let thread = &mut self.threads[t];
        match thread.doing {
            Doing::Gone => (),
            _ if thread.alerted[mode as usize] => return Reply::Yes,
            Doing::Blocked(w) if w.alertable && w.mode as usize >= mode as usize => self.end_wait(p, t, ALERTED),
            _ => thread.alerted[mode as usize] = true,
        }
        Reply::No
    }

    /// A wait or a delay of the running thread begins or is taken up again.
    pub fn wait(&mut self, p: usize, wait: Wait) -> Reply {
        let t = self.running(p);
        let level = self.cpus[p].level;
        let regions = self.threads[t].regions();
        let reply = self.wait_reply(t, wait, level, regions);
        let again = matches!(reply, Reply::Blocked | Reply::Status(KERNEL_APC));
        self.frame(p).again = if again { Some(wait) } else { None };
        let thread = &mut self.threads[t];
        let mode = wait.mode;
        match reply {
            Reply::Status(SATISFIED) if wait.due.is_none() => thread.released = false,
            Reply::Status(ALERTED) => {
                let taken = if thread.alerted[mode as usize] { mode } else { Mode::Kernel };
                thread.alerted[taken as usize] = false;
            }
            Reply::Status(USER_APC) if wait.alertable => thread.user_pending = true,
            Reply::Blocked => {
                let Wait { mode, alertable, due } = wait;
                let event = self.number;
                thread.doing = Doing::Blocked(Blocked { event, mode, alertable, delay: due.is_some(), level, regions });
                if let Some(due) = due {
                    self.delays[t] = Some(Setting { due, number: event, period: 0 });
                }
                self.cpus[p].running = None;
            }
            _ => (),
        }
        reply
    }

    /// The tests at a wait, in their order.
    fn wait_reply(&self, t: usize, wait: Wait, level: u8, regions: Regions) -> Reply {
        let thread = &self.threads[t];
        let user = wait.mode == Mode::User;
        let satisfied = match wait.due {
            Some(due) => due <= self.now,
            None => thread.released,
        };
        if thread.deliverable(level, regions).is_some() {
            Reply::Status(KERNEL_APC)
        } else if satisfied {
            Reply::Status(SATISFIED)
        } else if wait.alertable && thread.alerted[wait.mode as usize] {
            Reply::Status(ALERTED)
        } else if wait.alertable && user && thread.first_user_apc().is_some() {
            Reply::Status(USER_APC)
        } else if wait.alertable && thread.alerted[Mode::Kernel as usize] {
            Reply::Status(ALERTED)
        } else if !wait.alertable && user && thread.user_pending {
            Reply::Status(USER_APC)
        } else {
            Reply::Blocked
        }
    }

    fn acquire(&mut self, p: usize, x: usize) -> Reply {
        let frame = self.frame(p);
        let kept = frame.spin.unwrap_or(frame.level);
        let name = frame.name;
        frame.level = 2;
        let lock = &mut self.locks[x];
        if lock.holder.is_none() {
            *lock = Lock { holder: Some(name), kept, spinners: lock.spinners & !(1 << p) };
            self.cpus[p].held.push(x);
            self.frame(p).spin = None;
            return Reply::Done;
        }
        lock.spinners |= 1 << p;
        let frame = self.frame(p);
        frame.spin = Some(kept);
        frame.next -= 1;
        self.cpus[p].serve(LOCK_CLASS);
        self.cpus[p].last_spin = Some((x, self.number));
        Reply::Spin
    }

    /// The lock that the innermost frame acquired last is free, and who spins on it is asked to try again.
    pub fn free(&mut self, p: usize) {
        let x = self.cpus[p].held.pop().expect("the frame holds a lock");
        let Lock { kept, mut spinners, .. } = self.locks[x];
        self.locks[x].holder = None;
        self.frame(p).level = kept;
        while spinners != 0 {
            self.ask(p, spinners.trailing_zeros() as usize, LOCK_CLASS);
            spinners &= spinners - 1;
        }
    }
}

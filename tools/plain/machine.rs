//! The run of a script by the robin rule, and the next event of a processor (docs/machine.md).
//!
//! There are no lanes, and what a processor has seen stands nowhere. Where something was asked of it that it hasn't
//! seen, the robin rule makes it look first. So at any other event it has seen all, and lanes have nothing to tell it.

use crate::report::Report;
use crate::script::{ApcKind, Command, Routine, Script};
use crate::state::*;

pub struct Machine<'a> {
    pub script: &'a Script<'a>,
    limit: u32,
    pub report: Report<'a>,
    /// The number of the present event.
    pub number: u32,
    pub now: u64,
    pub cpus: Vec<Cpu>,
    pub objects: Vec<Object>,
    pub threads: Vec<Thread>,
    /// For each APC object the number of its pending insert.
    pub apcs: Vec<Option<u32>>,
    pub timers: Vec<Option<Setting>>,
    pub delays: Vec<Option<Setting>>,
    pub locks: Vec<Lock>,
}

/// A key of the list of timers.
enum Key {
    Timer(usize),
    Delay(usize),
}

impl<'a> Machine<'a> {
    pub fn new(script: &'a Script<'a>, limit: u32) -> Self {
        Machine {
            script,
            limit,
            report: Report::new(script),
            number: 0,
            now: 0,
            cpus: (0..script.cpus).map(|_| Cpu::default()).collect(),
            objects: script.dpcs.iter().map(|_| Object::new()).collect(),
            threads: script.threads.iter().map(|_| Thread::new()).collect(),
            apcs: vec![None; script.apcs.len()],
            timers: vec![None; script.timers.len()],
            delays: vec![None; script.threads.len()],
            locks: vec![Lock { holder: None, kept: 0, spinners: 0 }; script.locks.len()],
        }
    }

    /// Runs until the history is settled, and gives the text of the report.
    pub fn run(mut self) -> Vec<u8> {
        let (mut p, mut without_event) = (0, 0);
        while without_event < self.cpus.len() {
            if self.turn(p) {
                without_event = 0;
            } else {
                without_event += 1;
            }
            p += 1;
            if p == self.cpus.len() {
                p = 0;
            }
        }
        self.finish()
    }

    fn finish(mut self) -> Vec<u8> {
        for (p, cpu) in self.cpus.iter().enumerate() {
            if cpu.made == self.limit {
                self.report.cut(p);
            }
        }
        for (p, cpu) in self.cpus.iter().enumerate() {
            if let (Some((lock, number)), false) = (cpu.last_spin, cpu.made == self.limit || cpu.rested) {
                self.report.spins(p, lock, number);
            }
        }
        let dpcs = self.objects.iter().zip(&self.script.dpcs);
        let apcs = self.apcs.iter().zip(&self.script.apcs);
        let mut waits: Vec<(u32, &str, &[u8])> = Vec::new();
        waits.extend(dpcs.filter_map(|(x, d)| Some((x.standing?.number, " dpc ", d.name))));
        waits.extend(apcs.filter_map(|(x, a)| Some(((*x)?, " apc ", a.name))));
        waits.sort_unstable();
        for (number, what, name) in waits {
            self.report.waits(number, what, name);
        }
        self.report.finish(self.limit)
    }

    /// The processor's turn by the robin rule; false where it has none.
    fn turn(&mut self, p: usize) -> bool {
        let cpu = &mut self.cpus[p];
        if cpu.made == self.limit {
            return false;
        }
        if cpu.behind != 0 {
            self.report.look(p, cpu.behind, &cpu.asked);
            cpu.pending |= cpu.behind;
            cpu.behind = 0;
            cpu.rested = false;
        } else {
            let running = cpu.running;
            let Some(what) = self.event(p) else { return false };
            let level = self.innermost(p).map_or(0, |frame| frame.level);
            let cpu = &mut self.cpus[p];
            cpu.level = level;
            cpu.rested = what == What::Rest;
            self.report.event(self.number, p, running, level, &what);
        }
        self.cpus[p].made += 1;
        self.number += 1;
        true
    }

    fn innermost(&self, p: usize) -> Option<&Frame> {
        let cpu = &self.cpus[p];
        cpu.own.last().or_else(|| self.threads[cpu.running?].frames.last())
    }

    /// The innermost frame, where there is one.
    pub fn frame(&mut self, p: usize) -> &mut Frame {
        let cpu = &mut self.cpus[p];
        match (cpu.own.last_mut(), cpu.running) {
            (Some(frame), _) => frame,
            (None, Some(thread)) => self.threads[thread].frames.last_mut().expect("a running thread has a frame"),
            (None, None) => unreachable!("no frame"),
        }
    }

    /// The event of this number, by processor `by`, asks for the class on q.
    pub fn ask(&mut self, by: usize, q: usize, class: usize) {
        let cpu = &mut self.cpus[q];
        cpu.asked[class] = self.number + 1;
        if q == by {
            cpu.pending |= 1 << class;
        } else {
            cpu.behind |= 1 << class;
        }
    }

    /// Makes the next event of a processor that isn't cut and isn't behind; none where it rests or spins still.
    fn event(&mut self, p: usize) -> Option<What> {
        if let Some(what) = self.urgent_event(p) {
            return Some(what);
        }
        match self.innermost(p) {
            Some(frame) => self.frame_event(p, *frame),
            None => self.idle_event(p),
        }
    }

    /// Cases 1 to 5: what the processor must do.
    fn urgent_event(&mut self, p: usize) -> Option<What> {
        let cpu = &mut self.cpus[p];
        if cpu.pending == 0 && !cpu.sweep && cpu.fire.is_none() {
            return None;
        }
        if let Some(dpc) = cpu.fire.take() {
            return Some(What::Fire { dpc, reply: self.insert_dpc(p, dpc) });
        }
        let interrupts = cpu.interrupts();
        if interrupts != 0 {
            return Some(self.begin_interrupt(p, interrupts.ilog2() as usize));
        }
        if cpu.level < 2 && (cpu.sweep || cpu.is_pending(DISPATCH_CLASS)) {
            return Some(self.drain(p));
        }
        if cpu.level > 0 || !cpu.own.is_empty() {
            return None;
        }
        if let (Some(thread), true) = (cpu.running, cpu.is_pending(APC_CLASS)) {
            return Some(self.deliver(p, thread));
        }
        if cpu.is_pending(THREADED_CLASS) {
            return Some(self.begin_threaded(p));
        }
        None
    }

    fn begin_interrupt(&mut self, p: usize, level: usize) -> What {
        let routine = self.script.isrs[p][level].map_or(Routine::default(), |r| self.script.routines[r]);
        let cpu = &mut self.cpus[p];
        cpu.serve(level);
        cpu.sweep |= level == CLOCK_CLASS;
        let level = level as u8;
        cpu.own.push(Frame::new(self.number, Body::Interrupt, level, routine));
        What::Interrupt { level, from: cpu.asked[usize::from(level)] - 1 }
    }

    /// Case 3: an owed expiry, an ordinary DPC, or the end of this work.
    fn drain(&mut self, p: usize) -> What {
        if self.cpus[p].sweep {
            if let Some(key) = self.first_due() {
                return self.expire(p, key);
            }
        }
        match self.cpus[p].ordinary.pop_front() {
            Some(dpc) => self.begin_dpc(p, dpc, Body::Dpc, 2),
            None => {
                self.cpus[p].sweep = false;
                self.clean(p, DISPATCH_CLASS)
            }
        }
    }

    fn clean(&mut self, p: usize, class: usize) -> What {
        self.cpus[p].serve(class);
        What::Clean(class)
    }

    fn begin_dpc(&mut self, p: usize, dpc: usize, body: Body, base: u8) -> What {
        let from = self.objects[dpc].standing.take().map_or(0, |x| x.number);
        let routine = self.script.routines[self.script.dpcs[dpc].routine];
        self.cpus[p].own.push(Frame::new(self.number, body, base, routine));
        What::Dpc { dpc, from }
    }

    /// The key that is due first: by due time, then by the number of the event that set it.
    fn first_due(&self) -> Option<Key> {
        let timers = self.timers.iter().enumerate().filter_map(|(k, x)| Some((Key::Timer(k), (*x)?)));
        let delays = self.delays.iter().enumerate().filter_map(|(t, x)| Some((Key::Delay(t), (*x)?)));
        let due = timers.chain(delays).filter(|(_, setting)| setting.due <= self.now);
        due.min_by_key(|(_, setting)| (setting.due, setting.number)).map(|(key, _)| key)
    }

    fn expire(&mut self, p: usize, key: Key) -> What {
        match key {
            Key::Timer(timer) => {
                let old = self.timers[timer].take().expect("a due timer is set");
                if old.period > 0 {
                    let due = self.now + u64::from(old.period);
                    self.timers[timer] = Some(Setting { due, number: self.number, period: old.period });
                }
                self.cpus[p].fire = self.script.timers[timer].dpc;
                What::Timer { timer, from: old.number }
            }
            Key::Delay(thread) => {
                let from = self.delays[thread].take().expect("a due delay is set").number;
                if matches!(self.threads[thread].doing, Doing::Blocked(w) if w.delay && w.event == from) {
                    self.end_wait(p, thread, SATISFIED);
                }
                What::Delay { thread, from }
            }
        }
    }

    /// Case 4: the running thread's first kernel APC, where it is deliverable.
    fn deliver(&mut self, p: usize, thread: usize) -> What {
        let regions = self.threads[thread].regions();
        match self.threads[thread].deliverable(0, regions) {
            Some(apc) => self.begin_apc(thread, apc),
            None => self.clean(p, APC_CLASS),
        }
    }

    fn begin_apc(&mut self, thread: usize, apc: usize) -> What {
        let declared = &self.script.apcs[apc];
        let routine = self.script.routines[declared.kernel];
        let from = self.take_apc(thread, apc);
        let thread = &mut self.threads[thread];
        if declared.kind == ApcKind::User {
            thread.user_pending = false;
        }
        thread.frames.push(Frame::new(self.number, Body::Apc(apc, declared.kind), 1, routine));
        What::Apc { apc, from }
    }

    /// Case 5: the first threaded DPC.
    fn begin_threaded(&mut self, p: usize) -> What {
        match self.cpus[p].threaded.pop_front() {
            Some(dpc) => self.begin_dpc(p, dpc, Body::Threaded, 0),
            None => self.clean(p, THREADED_CLASS),
        }
    }

    /// Cases 5a to 10: the innermost frame goes on.
    fn frame_event(&mut self, p: usize, frame: Frame) -> Option<What> {
        let cpu = &self.cpus[p];
        if frame.spin.is_some() && !cpu.is_pending(LOCK_CLASS) {
            return None;
        }
        if let Some(wait) = frame.again {
            return Some(What::Rewait { frame: frame.name, reply: self.wait(p, wait) });
        }
        if frame.leaving {
            return Some(self.run_down(p));
        }
        if frame.next < frame.end {
            return Some(self.call(p, frame));
        }
        match cpu.held.last() {
            Some(&lock) if self.locks[lock].holder == Some(frame.name) => {
                self.free(p);
                Some(What::Free { frame: frame.name, lock })
            }
            _ => Some(self.go_on_or_end(p, frame)),
        }
    }

    /// Case 7: the first user APC of a leaving thread is flushed, or the thread is gone.
    fn run_down(&mut self, p: usize) -> What {
        let t = self.running(p);
        let Some(apc) = self.threads[t].first_user_apc() else {
            self.threads[t].doing = Doing::Gone;
            self.threads[t].frames.clear();
            self.cpus[p].running = None;
            return What::Gone(t);
        };
        let from = self.take_apc(t, apc);
        if let Some(rundown) = self.script.apcs[apc].rundown {
            let routine = self.script.routines[rundown];
            self.threads[t].frames.push(Frame::new(self.number, Body::Rundown, 0, routine));
        }
        What::Flush { apc, from }
    }

    /// Case 8: the next command, or the user APC that begins at `touser`.
    fn call(&mut self, p: usize, frame: Frame) -> What {
        let line = frame.next;
        let command = self.script.lines[line].command;
        let refusal = self.refusal(p, &frame, command);
        if matches!(command, Command::ToUser) && refusal.is_none() {
            let t = self.running(p);
            let thread = &self.threads[t];
            if let (true, Some(apc)) = (thread.user_pending, thread.first_user_apc()) {
                return self.begin_apc(t, apc);
            }
        }
        self.frame(p).next += 1;
        let reply = match refusal {
            Some(refusal) => Reply::Refused(refusal),
            None => self.act(p, command),
        };
        What::Call { frame: frame.name, line, reply }
    }

    /// Cases 9 and 10: an APC goes on to its normal routine, or the frame ends.
    fn go_on_or_end(&mut self, p: usize, frame: Frame) -> What {
        if !self.cpus[p].own.is_empty() {
            self.cpus[p].own.pop();
            return What::End(frame.name);
        }
        let t = self.running(p);
        let thread = &mut self.threads[t];
        let mut asks = thread.regions().came_to_0(thread.regions_below());
        let what = match frame.body {
            Body::Apc(apc, kind) if frame.kernel_phase && kind != ApcKind::Special => {
                let routine = self.script.apcs[apc].normal.map_or(Routine::default(), |r| self.script.routines[r]);
                self.frame(p).restart(routine);
                What::Normal(frame.name)
            }
            Body::Base => {
                asks |= thread.has_kernel_apc();
                thread.closed = true;
                let frame = self.frame(p);
                frame.restart(Routine::default());
                frame.leaving = true;
                What::End(frame.name)
            }
            _ => {
                asks |= matches!(frame.body, Body::Apc(_, ApcKind::Normal));
                if matches!(frame.body, Body::Apc(_, ApcKind::User)) {
                    thread.test_alert(crate::script::Mode::User);
                }
                thread.frames.pop();
                What::End(frame.name)
            }
        };
        if asks {
            self.ask(p, p, APC_CLASS);
        }
        what
    }

    /// Cases 11 to 14, and the choice of a thread.
    fn idle_event(&mut self, p: usize) -> Option<What> {
        if self.cpus[p].rested {
            return None;
        }
        if let Some(thread) = self.next_ready(p) {
            return Some(self.switch(p, thread));
        }
        if let Some(dpc) = self.cpus[p].ordinary.pop_front() {
            return Some(self.begin_dpc(p, dpc, Body::Dpc, 2));
        }
        self.cpus[p].idle = true;
        Some(What::Rest)
    }

    /// The ready thread of least number above the one that was taken last, else of least number.
    fn next_ready(&self, p: usize) -> Option<usize> {
        let first = self.cpus[p].took.map_or(0, |t| t + 1);
        let mut numbers = (first..self.threads.len()).chain(0..first);
        numbers.find(|&t| self.script.threads[t].cpu == p && matches!(self.threads[t].doing, Doing::Ready(_)))
    }

    fn switch(&mut self, p: usize, t: usize) -> What {
        let thread = &mut self.threads[t];
        let Doing::Ready(status) = thread.doing else { unreachable!("a thread that is taken up is ready") };
        thread.doing = Doing::Running;
        match thread.frames.last_mut() {
            None => {
                let routine = self.script.routines[self.script.threads[t].routine];
                thread.frames.push(Frame::new(self.number, Body::Base, 0, routine));
            }
            Some(frame) if status.is_some_and(|s| s != KERNEL_APC) => frame.again = None,
            Some(_) => (),
        }
        let asks = thread.has_kernel_apc();
        let cpu = &mut self.cpus[p];
        cpu.running = Some(t);
        cpu.took = Some(t);
        cpu.idle = false;
        if asks {
            self.ask(p, p, APC_CLASS);
        }
        What::Switch { thread: t, status }
    }
}

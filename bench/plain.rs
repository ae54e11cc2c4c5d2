//! A scheduler clock without proofs, for measuring: the readings of a plain machine, and their trace.
//!
//! It makes the machine that its arguments describe, and writes what `clock_tool run` writes for the file of that machine,
//! which `bench/compare` makes. It has the rules of such a machine alone: a per-CPU start, no bring-up, no readers, no
//! watchdog. It uses std alone: threads, atomics of sequential consistency, a stable sort.

use std::io::{self, BufWriter, Write};
use std::sync::atomic::{AtomicI64, AtomicU64, Ordering::SeqCst};
use std::sync::Barrier;
use std::{env, process, thread};

const USAGE: &str = "usage: plain CPUS REPEAT DELAYS JUMPS WORD..

Makes WORD.. REPEAT times on each CPU and writes the trace. A WORD is local, tick, update, idle, remote (a reading of the
next CPU's clock) or pause (of 3 tickets). The machine stands still DELAYS times, and each counter jumps JUMPS times.";

const STEP: u64 = 100;
const TICK: i64 = 1_000_000;
const CPU_KHZ: u64 = 2_400_000;
const REFERENCE_KHZ: u64 = 1_000_000;
const PAUSE: u64 = 3;

#[derive(Clone, Copy)]
enum Word { Local, Tick, Update, Idle, Remote, Pause }

struct Rate { mult: u64, shift: u32 }

impl Rate {
    /// The rate of a counter that keeps as many bits as so many seconds allow.
    fn new(khz: u64, seconds: u64) -> Rate {
        let hz = khz * 1000;
        let bits = ((seconds * hz) >> 32).leading_zeros() - 32;
        let mult = |shift: u32| ((1_000_000_000 << shift) + hz / 2) / hz;
        let shift = (1..33).rev().find(|&shift| mult(shift) >> bits == 0).unwrap();
        Rate { mult: mult(shift), shift }
    }

    fn ns(&self, cycles: u64) -> i64 { ((cycles as u128 * self.mult as u128) >> self.shift) as i64 }
}

/// What is added from a place on, for each of some places.
struct Sums(Vec<(u64, i64)>);

impl Sums {
    fn new<I: Iterator<Item = (u64, i64)>>(pairs: I) -> Sums {
        Sums(pairs.scan(0, |sum, (at, more)| { *sum += more; Some((at, *sum)) }).collect())
    }

    fn at(&self, place: u64) -> i64 {
        let count = self.0.partition_point(|pair| pair.0 <= place);
        if count == 0 { 0 } else { self.0[count - 1].1 }
    }
}

struct Machine { cpus: usize, repeat: u64, script: Vec<Word>, delays: Sums, jumps: Sums, clock: Rate, reference: Rate }

impl Machine {
    fn time(&self, ticket: u64) -> u64 { ticket * STEP + self.delays.at(ticket) as u64 }

    fn counter(&self, cpu: usize, ticket: u64) -> u64 {
        let time = self.time(ticket);
        (1000 * cpu as i64 + (time * CPU_KHZ / 1_000_000) as i64 + self.jumps.at(time)).max(0) as u64
    }

    fn monotonic(&self, ticket: u64) -> i64 { self.reference.ns(self.time(ticket) * REFERENCE_KHZ / 1_000_000) }
}

#[derive(Clone, Copy)]
struct Raw { ticket: u64, cycles: u64, record: u32, ns: i64 }

/// The record that a CPU's raw clock counts from, in two copies; the sequence names one that is whole.
#[derive(Default)]
struct Latch { sequence: AtomicU64, copies: [(AtomicU64, AtomicI64); 2] }

impl Latch {
    fn record(&self) -> (u32, u64, i64) {
        loop {
            let sequence = self.sequence.load(SeqCst);
            let copy = &self.copies[sequence as usize & 1];
            let found = ((sequence / 2) as u32, copy.0.load(SeqCst), copy.1.load(SeqCst));
            if self.sequence.load(SeqCst) == sequence { return found; }
        }
    }

    fn publish(&self, cycles: u64, ns: i64) {
        for copy in self.copies.iter().rev() {
            copy.0.store(cycles, SeqCst);
            copy.1.store(ns, SeqCst);
            self.sequence.fetch_add(1, SeqCst);
        }
    }
}

/// A CPU's clock, on cache lines of its own.
#[derive(Default)]
#[repr(align(128))]
struct Cpu { word: AtomicI64, tick_raw: AtomicI64, tick_monotonic: AtomicI64, latch: Latch }

struct Shared { machine: Machine, cpus: Vec<Cpu>, tickets: AtomicU64, offset: AtomicI64 }

enum Kind {
    Local { raw: Raw, tick_raw: i64, tick_monotonic: i64, offset: i64, old: i64, new: i64 },
    Couple { asked: u32, own: i64, other: i64, word: u32, old: i64, new: i64 },
    Stamp { ticket: u64, monotonic: i64, raw: Raw },
    Update(Raw),
    Pause { ticket: u64 },
}

struct Event { call: u32, kind: Kind }

/// A CPU's thread.
struct Worker<'a> { shared: &'a Shared, cpu: usize, call: u32, events: Vec<Event> }

impl<'a> Worker<'a> {
    fn own(&self) -> &'a Cpu { &self.shared.cpus[self.cpu] }

    fn keep(&mut self, kind: Kind) { self.events.push(Event { call: self.call, kind }); }

    fn raw(&self) -> Raw {
        let ticket = self.shared.tickets.fetch_add(1, SeqCst);
        let cycles = self.shared.machine.counter(self.cpu, ticket);
        let (record, last, ns) = self.own().latch.record();
        let gone = (cycles.wrapping_sub(last) as i64).max(0) as u64;
        Raw { ticket, cycles, record, ns: ns + self.shared.machine.clock.ns(gone) }
    }

    fn local(&mut self) {
        let raw = self.raw();
        let own = self.own();
        let (tick_raw, tick_monotonic) = (own.tick_raw.load(SeqCst), own.tick_monotonic.load(SeqCst));
        let offset = self.shared.offset.load(SeqCst);
        let target = tick_monotonic + offset + (raw.ns - tick_raw).max(0).min(TICK);
        let old = own.word.fetch_max(target, SeqCst);
        self.keep(Kind::Local { raw, tick_raw, tick_monotonic, offset, old, new: old.max(target) });
    }

    fn remote(&mut self) {
        self.local();
        let asked = (self.cpu + 1) % self.shared.cpus.len();
        if asked == self.cpu { return; }
        let (own, other) = (self.own().word.load(SeqCst), self.shared.cpus[asked].word.load(SeqCst));
        let (word, value) = if other < own { (asked, own) } else { (self.cpu, other) };
        let old = self.shared.cpus[word].word.fetch_max(value, SeqCst);
        self.keep(Kind::Couple { asked: asked as u32, own, other, word: word as u32, old, new: old.max(value) });
    }

    fn tick(&mut self) {
        let ticket = self.shared.tickets.fetch_add(1, SeqCst);
        let monotonic = self.shared.machine.monotonic(ticket);
        self.own().tick_monotonic.store(monotonic, SeqCst);
        let raw = self.raw();
        self.own().tick_raw.store(raw.ns, SeqCst);
        self.keep(Kind::Stamp { ticket, monotonic, raw });
        self.local();
    }

    fn update(&mut self) {
        let raw = self.raw();
        self.own().latch.publish(raw.cycles, raw.ns);
        self.keep(Kind::Update(raw));
    }

    fn pause(&mut self) {
        let ticket = self.shared.tickets.fetch_add(PAUSE, SeqCst);
        self.keep(Kind::Pause { ticket });
    }

    fn run(mut self, start: &Barrier) -> Vec<Event> {
        let machine = &self.shared.machine;
        start.wait();
        for _ in 0..machine.repeat {
            for &word in &machine.script {
                match word {
                    Word::Local => self.local(),
                    Word::Tick => self.tick(),
                    Word::Update => self.update(),
                    Word::Idle => { self.local(); self.tick(); }
                    Word::Remote => self.remote(),
                    Word::Pause => self.pause(),
                }
                self.call += 1;
            }
        }
        self.events
    }
}

/// A step of a clock word, with its place in its thread.
struct Step { new: i64, old: i64, thread: u32, call: u32, place: u32 }

/// The steps of each clock word, by their values.
fn histories(threads: &[Vec<Event>]) -> Vec<Vec<Step>> {
    let mut lists: Vec<Vec<Step>> = threads.iter().map(|events| Vec::with_capacity(events.len())).collect();
    for (thread, events) in threads.iter().enumerate() {
        for (place, event) in events.iter().enumerate() {
            let (word, old, new) = match event.kind {
                Kind::Local { old, new, .. } => (thread, old, new),
                Kind::Couple { word, old, new, .. } => (word as usize, old, new),
                _ => continue,
            };
            lists[word].push(Step { new, old, thread: thread as u32, call: event.call, place: place as u32 });
        }
    }
    for list in &mut lists {
        list.sort_by_key(|step| (step.new, step.new == step.old, step.thread, step.call, step.place));
    }
    lists
}

/// Writes a line of these numbers, with a name behind the first of them unless it is empty. The line is built from its
/// end, since digits come last first.
fn write<W: Write>(out: &mut W, first: u32, name: &str, numbers: &[i64]) -> io::Result<()> {
    let mut line = [b' '; 256];
    let mut start = 255;
    line[start] = b'\n';
    for number in numbers.iter().rev() {
        start = put(&mut line, start, number.unsigned_abs());
        if *number < 0 {
            start -= 1;
            line[start] = b'-';
        }
        start -= 1;
    }
    line[start - name.len()..start].copy_from_slice(name.as_bytes());
    start = put(&mut line, start - name.len(), first as u64);
    out.write_all(&line[start..])
}

/// Puts the digits of a number before the end, and returns where they start.
fn put(line: &mut [u8; 256], end: usize, number: u64) -> usize {
    let (mut start, mut left) = (end, number);
    while left >= 100 {
        line[start - 1] = b'0' + (left % 10) as u8;
        line[start - 2] = b'0' + (left / 10 % 10) as u8;
        start -= 2;
        left /= 100;
    }
    line[start - 1] = b'0' + (left % 10) as u8;
    if left < 10 { return start - 1; }
    line[start - 2] = b'0' + (left / 10) as u8;
    start - 2
}

fn write_event<W: Write>(out: &mut W, event: &Event) -> io::Result<()> {
    let four = |raw: &Raw| (raw.ticket as i64, raw.cycles as i64, raw.record as i64, raw.ns);
    match event.kind {
        Kind::Local { ref raw, tick_raw, tick_monotonic, offset, old, new } => {
            let (ticket, cycles, record, ns) = four(raw);
            let numbers = [ticket, cycles, record, ns, tick_raw, tick_monotonic, offset, old, new];
            write(out, event.call, " local", &numbers)
        }
        Kind::Couple { asked, own, other, word, old, new } =>
            write(out, event.call, " couple", &[asked as i64, own, other, word as i64, old, new]),
        Kind::Stamp { ticket, monotonic, ref raw } => {
            let numbers = four(raw);
            let numbers = [ticket as i64, monotonic, numbers.0, numbers.1, numbers.2, numbers.3];
            write(out, event.call, " stamp", &numbers)
        }
        Kind::Update(ref raw) => {
            let (ticket, cycles, record, ns) = four(raw);
            write(out, event.call, " update", &[record + 1, ticket, cycles, ns])
        }
        Kind::Pause { ticket } => write(out, event.call, " pause", &[ticket as i64, PAUSE as i64]),
    }
}

fn run(machine: Machine) -> io::Result<()> {
    let (first, monotonic, cycles) = (machine.counter(0, 0), machine.monotonic(1), machine.counter(0, 2));
    let ns = machine.clock.ns(cycles - first);
    let offset = ns - monotonic;
    let cpus: Vec<Cpu> = (0..machine.cpus).map(|_| Cpu::default()).collect();
    for cpu in &cpus {
        cpu.word.store(monotonic + offset, SeqCst);
        cpu.tick_raw.store(ns, SeqCst);
        cpu.tick_monotonic.store(monotonic, SeqCst);
        for copy in &cpu.latch.copies { copy.0.store(first, SeqCst); }
    }
    let room: usize = machine.script.iter().map(|word| match *word { Word::Idle => 3, Word::Tick | Word::Remote => 2, _ => 1 }).sum();
    let room = room * machine.repeat as usize;
    let shared = &Shared { machine, cpus, tickets: AtomicU64::new(3), offset: AtomicI64::new(offset) };
    let count = shared.cpus.len();
    let start = &Barrier::new(count);
    let worker = |cpu| Worker { shared, cpu, call: 0, events: Vec::with_capacity(room) };
    let threads: Vec<Vec<Event>> = thread::scope(|scope| {
        let threads: Vec<_> = (0..count).map(|cpu| scope.spawn(move || worker(cpu).run(start))).collect();
        threads.into_iter().map(|thread| thread.join().unwrap()).collect()
    });
    let histories = histories(&threads);

    let out = &mut BufWriter::with_capacity(1 << 16, io::stdout());
    writeln!(out, "trace 1\nepoch 0 {}\nboot 1 {} 2 {} 0 {}\nstart percpu 0 {}", first, monotonic, cycles, ns, offset)?;
    for cpu in 1..count { writeln!(out, "cpu {} 0 untested", cpu)?; }
    for cpu in 0..count { writeln!(out, "word {} {}", cpu, monotonic + offset)?; }
    for (cpu, events) in threads.iter().enumerate() {
        writeln!(out, "thread {} {}", cpu, cpu)?;
        for event in events { write_event(out, event)?; }
    }
    for (cpu, steps) in histories.iter().enumerate() {
        writeln!(out, "history {} {}", cpu, steps.len())?;
        for step in steps { write(out, step.thread, "", &[step.call as i64, step.old, step.new])?; }
    }
    writeln!(out, "end {}", shared.tickets.load(SeqCst))?;
    out.flush()
}

fn word(name: &str) -> Option<Word> {
    let words = [Word::Local, Word::Tick, Word::Update, Word::Idle, Word::Remote, Word::Pause];
    let names = ["local", "tick", "update", "idle", "remote", "pause"];
    names.iter().position(|&other| other == name).map(|place| words[place])
}

/// The machine of these arguments, if they are a command.
fn machine(arguments: &[String]) -> Option<Machine> {
    if arguments.len() < 4 { return None; }
    let numbers: Option<Vec<u64>> = arguments[..4].iter().map(|number| number.parse().ok()).collect();
    let script: Option<Vec<Word>> = arguments[4..].iter().map(|name| word(name)).collect();
    let (numbers, script) = (numbers?, script?);
    Some(Machine {
        cpus: numbers[0] as usize,
        repeat: numbers[1],
        script,
        delays: Sums::new((1..numbers[2] + 1).map(|place| (64 * place, 300))),
        jumps: Sums::new((1..numbers[3] + 1).map(|place| (100_000 * place, if place % 2 == 0 { -400 } else { 500 }))),
        clock: Rate::new(CPU_KHZ, 3600),
        reference: Rate::new(REFERENCE_KHZ, 600),
    })
}

fn main() {
    let arguments: Vec<String> = env::args().skip(1).collect();
    match machine(&arguments).filter(|machine| machine.cpus > 0) {
        Some(machine) => if let Err(fault) = run(machine) { eprintln!("plain: {}", fault); process::exit(4) },
        None => { eprintln!("{}", USAGE); process::exit(1) }
    }
}

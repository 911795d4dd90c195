//! A discrete-event simulator over the proved world: sites load and store at random, and each message takes its time on its way.
//!
//! `simulator SITES ACCESSES SEED SCRIPT OUT` writes a trace of the accesses that ended to standard output, the script of all events to
//! SCRIPT, and to OUT what `shmdbg replay SCRIPT` has to print.
use std::cmp::Reverse;
use std::collections::BinaryHeap;
use std::fs::File;
use std::io::{BufWriter, Write};
use std::ptr::null_mut;

#[repr(C)]
struct Handle {
    at: *mut u8,
}

#[repr(C)]
struct Answer {
    kind: u32,
    value: u32,
    number: u64,
}

#[repr(C)]
#[derive(Default)]
struct Envelope {
    kind: u32,
    from: u32,
    to: u32,
    seg: u32,
    index: u32,
    number: u64,
    writes: bool,
    hand_to: u32,
}

#[repr(C)]
#[derive(Default)]
struct Reply {
    numbers: [u32; 3],
    flags: [bool; 2],
    further: [u32; 8],
    marked: bool,
    attaches: u64,
}

// What the safe type `World` below owes is in clients/core/leddwyfan_core.h.
#[link(name = "leddwyfan", kind = "static")]
unsafe extern "C" {
    fn leddwyfan_world_make(world: &mut Handle, sites: u32, pages: u32, frames: u32) -> u32;
    fn leddwyfan_world_free(world: &mut Handle);
    fn leddwyfan_world_load(world: &mut Handle, site: u32, at: u32, offset: u32) -> Answer;
    fn leddwyfan_world_store(world: &mut Handle, site: u32, at: u32, offset: u32, byte: u8) -> Answer;
    fn leddwyfan_world_deliver(world: &mut Handle, number: u64, reply: &mut Reply) -> Answer;
    fn leddwyfan_world_sent(world: &mut Handle) -> u64;
    fn leddwyfan_world_envelope(world: &mut Handle, number: u64, out: &mut Envelope);
}

struct World(Handle);

impl World {
    fn make(sites: u32, pages: u32) -> Option<World> {
        let mut handle = Handle { at: null_mut() };
        (unsafe { leddwyfan_world_make(&mut handle, sites, pages, 0) } == 0).then_some(World(handle))
    }

    fn sent(&mut self) -> u64 {
        unsafe { leddwyfan_world_sent(&mut self.0) }
    }
}

impl Drop for World {
    fn drop(&mut self) {
        unsafe { leddwyfan_world_free(&mut self.0) }
    }
}

const PAGES: u32 = 2;
const KINDS: [&str; 11] = ["", "Ask", "Cleared", "Confirm", "Clear", "Hand", "Page", "Call", "Reply", "Purge", "Purged"];

#[derive(Clone, Copy)]
struct Access {
    store: bool,
    offset: u32,
    byte: u8,
    left: u32,
}

/// What happens: an access of a site is tried, or a message arrives.
#[derive(PartialEq, Eq, PartialOrd, Ord)]
enum Happening {
    Access(u32),
    Message(u64),
}

struct Simulator {
    world: World,
    queue: BinaryHeap<Reverse<(u64, u64, Happening)>>,
    order: u64,
    seed: u64,
    now: u64,
    lines: u64,
    script: BufWriter<File>,
    out: BufWriter<File>,
}

impl Simulator {
    fn chance(&mut self, below: u32) -> u32 {
        self.seed = self.seed.wrapping_mul(6364136223846793005).wrapping_add(1442695040888963407);
        (self.seed >> 33) as u32 % below
    }

    fn plan(&mut self, after: u32, happening: Happening) {
        self.queue.push(Reverse((self.now + u64::from(after), self.order, happening)));
        self.order += 1;
    }

    /// Writes the answer as a replay does, and sends what the event sent on its way: some microseconds, and more for a page.
    fn tell(&mut self, answer: &Answer, sent_before: u64) -> std::io::Result<()> {
        self.lines += 1;
        let words = ["", "byte", "stored", "fault", "waiting", "", "", "took", "dropped", "refused"];
        write!(self.out, "{} {}", self.lines, words[answer.kind as usize])?;
        if answer.kind == 1 || answer.kind == 9 {
            write!(self.out, " {}", answer.value)?;
        }
        for number in sent_before..self.world.sent() {
            let mut envelope = Envelope::default();
            unsafe { leddwyfan_world_envelope(&mut self.world.0, number, &mut envelope) };
            write!(self.out, " m{number}>{}:{}", envelope.to, KINDS[envelope.kind as usize])?;
            let page = if envelope.kind == 6 { 10 } else { 0 };
            let after = if envelope.from == envelope.to { 0 } else { 5 + self.chance(5) + page };
            self.plan(after, Happening::Message(number));
        }
        writeln!(self.out)
    }

    /// The site tries its access; one that ends is written to the trace, and the next one is planned.
    fn try_access(&mut self, site: u32, access: &mut Access) -> std::io::Result<()> {
        let sent = self.world.sent();
        let Access { store, offset, byte, .. } = *access;
        let answer = if store {
            writeln!(self.script, "store {site} 0 {offset} {byte}")?;
            unsafe { leddwyfan_world_store(&mut self.world.0, site, 0, offset, byte) }
        } else {
            writeln!(self.script, "load {site} 0 {offset}")?;
            unsafe { leddwyfan_world_load(&mut self.world.0, site, 0, offset) }
        };
        self.tell(&answer, sent)?;
        if answer.kind == 3 || answer.kind == 4 {
            self.plan(7, Happening::Access(site));
            return Ok(());
        }
        let (verb, value) = if store { ("stored", u32::from(byte)) } else { ("loaded", answer.value) };
        println!("{} us: site {site} {verb} {value} at {offset}", self.now);
        access.left -= 1;
        if access.left > 0 {
            access.store = self.chance(3) == 0;
            access.offset = self.chance(PAGES) * 4096 + self.chance(4);
            access.byte = self.chance(256) as u8;
            let after = 1 + self.chance(20);
            self.plan(after, Happening::Access(site));
        }
        Ok(())
    }

    fn run(&mut self, sites: u32, each: u32) -> std::io::Result<()> {
        writeln!(self.script, "sites {sites} preset {PAGES}")?;
        self.lines += 1;
        writeln!(self.out, "{} ready", self.lines)?;
        let mut accesses = Vec::new();
        for site in 0..sites {
            accesses.push(Access { store: true, offset: site, byte: site as u8, left: each });
            let after = self.chance(20);
            self.plan(after, Happening::Access(site));
        }
        while let Some(Reverse((time, _, happening))) = self.queue.pop() {
            self.now = time;
            match happening {
                Happening::Access(site) => self.try_access(site, &mut accesses[site as usize])?,
                Happening::Message(number) => {
                    let sent = self.world.sent();
                    writeln!(self.script, "deliver {number}")?;
                    let answer = unsafe { leddwyfan_world_deliver(&mut self.world.0, number, &mut Reply::default()) };
                    self.tell(&answer, sent)?;
                }
            }
        }
        Ok(())
    }
}

fn main() -> std::io::Result<()> {
    let words: Vec<String> = std::env::args().collect();
    let number = |k: usize| words.get(k).and_then(|word| word.parse::<u32>().ok());
    let (Some(sites), Some(each), Some(seed), 6) = (number(1), number(2), number(3), words.len()) else {
        eprintln!("simulator SITES ACCESSES SEED SCRIPT OUT");
        std::process::exit(2);
    };
    let world = World::make(sites, PAGES).ok_or_else(|| std::io::Error::other("no world"))?;
    let file = |k: usize| File::create(&words[k]).map(BufWriter::new);
    let (script, out) = (file(4)?, file(5)?);
    let mut simulator = Simulator { world, queue: BinaryHeap::new(), order: 0, seed: u64::from(seed), now: 0, lines: 0, script, out };
    simulator.run(sites, each)?;
    simulator.script.flush()?;
    simulator.out.flush()
}

// uses: shm_place shm_model shm_world anyhow
//! Times three things that a world does, in nanoseconds: a load with the right, a store with the right, and a page that is fetched for
//! writing, from the store without the right over all four deliveries to the store that is made.
//!
//! Words: which of them, how many times in a round, and how many rounds.
// Named for the prover, which doesn't find this part of an answer otherwise.
ghost use Rattle.shm_model.specs.declared.call.Reply.{Reply};

use anyhow::{Result, bail};
use shm_place::{PAGE_BYTES, SiteId, Sites};
use shm_world::{Answer, Event, World};
use std::alloc::AllocError;
use std::env;
use std::io::Write;
use std::rt::Clock;
use std::time::Instant;

const PAGE: u32 = PAGE_BYTES as u32;

fn main(rt: HostRuntime) -> Result<()> {
    let alloc = rt.alloc();
    let words: Vec<String> = env::args(&rt)?.collect(alloc)?;
    if words.len() != 4 {
        bail!("three words: load, store or fetch, how many times in a round, and how many rounds");
    }
    let times: u32 = words[2].parse()?;
    let rounds: u32 = words[3].parse()?;
    let Ok(sites) = Sites::new(2) else {
        bail!("a world has 1 to 16 sites");
    };
    let mut world = World::preset(alloc, sites, 1)?;
    let mut taken = Vec::new(alloc);
    for _ in 0..rounds {
        taken.push(round(&rt, &mut world, words[1].as_str(), times)?)?;
    }
    taken.sort_unstable();
    let each = times.max(1) as u128;
    let best = taken.first().copied().unwrap_or(0) / each;
    let median = taken.get(taken.len() / 2).copied().unwrap_or(0) / each;
    let what = words[1].as_str();
    writeln!(rt.stdout(), "{what}: median {median} ns, best {best} ns")?;
    Ok(())
}

/// How many nanoseconds a round takes.
fn round(rt: &impl Clock, world: &mut World, what: &str, times: u32) -> Result<u128> {
    let begun = Instant::now(rt)?;
    match what {
        "load" => load(world, times)?,
        "store" => store(world, times)?,
        "fetch" => fetch(world, times)?,
        _ => bail!("load, store or fetch"),
    }
    Ok(begun.elapsed(rt)?.as_nanos())
}

/// Site 0 loads.
fn load(world: &mut World, times: u32) -> Result<()> {
    for time in 0..times {
        let event = Event::Load {
            site: SiteId(0),
            at: 0,
            offset: time % PAGE,
        };
        expect(world, event, Answer::Byte(0))?;
    }
    Ok(())
}

/// Site 0 stores.
fn store(world: &mut World, times: u32) -> Result<()> {
    for time in 0..times {
        expect(world, store_of(0, time % PAGE), Answer::Stored)?;
    }
    Ok(())
}

/// Sites 1 and 0 store in turn; each time the page is fetched.
fn fetch(world: &mut World, times: u32) -> Result<()> {
    for time in 0..times {
        let site = 1 - time % 2;
        expect(world, store_of(site, 5), Answer::Fault)?;
        deliver_all(world)?;
        expect(world, store_of(site, 5), Answer::Stored)?;
    }
    Ok(())
}

/// The four envelopes of a page that is fetched: Ask, Hand, Page, Confirm. Each is the last that was sent.
fn deliver_all(world: &mut World) -> Result<()> {
    for _ in 0..4 {
        let last = world.sent().saturating_sub(1);
        expect(world, Event::Deliver(last), Answer::Took)?;
    }
    Ok(())
}

fn store_of(site: u32, offset: u32) -> Event {
    Event::Store {
        site: SiteId(site),
        at: 0,
        offset,
        byte: 7,
    }
}

fn expect(world: &mut World, event: Event, wanted: Answer) -> Result<()> {
    if !answers(world, event, wanted)? {
        bail!("another answer than expected");
    }
    Ok(())
}

/// Whether the event is answered so.
fn answers(world: &mut World, event: Event, wanted: Answer) -> Result<bool, AllocError> {
    match world.step(event) {
        Ok(answer) => Ok(answer == wanted),
        Err(refused) => Err(refused),
    }
}

//! A second, plain implementation of the generator, for the tests. It has its own random words, by wrapping arithmetic, and its own texts.

use std::alloc::{AllocError as NoMemory, Global};

// The words of PCG32 in stream 0, whose increment is 1.
#[derive(Drop)]
struct Words {
    state: u64,
}

impl Words {
    fn new(seed: u64) -> Words {
        let mut words = Words {
            state: seed.wrapping_add(1),
        };
        let _first = words.next();
        words
    }

    fn next(&mut self) -> u32 {
        let old = self.state;
        self.state = old.wrapping_mul(6_364_136_223_846_793_005).wrapping_add(1);
        let mixed = u32::try_from((((old >> 18) ^ old) >> 27) % 4_294_967_296).unwrap_or(0);
        mixed.rotate_right(u32::try_from(old >> 59).unwrap_or(0))
    }
}

// Returns the domain file.
pub(crate) fn domains(alloc: Global, size: u32) -> Result<String, NoMemory> {
    let mut text = String::new(alloc);
    for s in 1..=size {
        text.push_str(format!(in alloc; "DOMAIN,{s},14,15,16,17\n")?.as_str())?;
    }
    Ok(text)
}

// Returns the scenario's stations as in its file.
fn stations(alloc: Global, words: &mut Words, size: u32) -> Result<String, NoMemory> {
    let mut text = String::new(alloc);
    for s in 1..=size {
        let volume = words.next() % 1000 + 1;
        let value = words.next() % (100 * volume + 1);
        let comma = if s == 1 { "" } else { "," };
        text.push_str(format!(in alloc;
            "{comma}{{\"id\":{s},\"value\":{value},\"volume\":{volume}}}"
        )?.as_str())?;
    }
    Ok(text)
}

// Checks whether two stations are in the same block.
fn share_block(station: u32, other: u32) -> bool {
    station > 0 && other > 0 && (station - 1) / 16 == (other - 1) / 16
}

// Returns the later stations that a station interferes with on the same channel, each after a comma.
fn links(alloc: Global, words: &mut Words, station: u32, size: u32) -> Result<String, NoMemory> {
    let mut text = String::new(alloc);
    for t in 1..=size {
        if t > station && share_block(station, t) && words.next() % 2 == 1 {
            text.push_str(format!(in alloc; ",{t}")?.as_str())?;
        }
    }
    Ok(text)
}

// Returns the rows of a station.
fn rows_of(alloc: Global, words: &mut Words, station: u32, size: u32) -> Result<String, NoMemory> {
    let mut text = String::new(alloc);
    let links = links(alloc, words, station, size)?;
    let next = station.saturating_add(1);
    let adjacent = next <= size && share_block(station, next) && words.next() % 4 == 0;
    for c in 14..18 {
        if !links.is_empty() {
            text.push_str(format!(in alloc; "CO,{c},{c},{station}{links}\n")?.as_str())?;
        }
    }
    for c in 14..17 {
        if adjacent {
            text.push_str(format!(in alloc; "ADJ+1,{c},{},{station},{next}\n", c + 1)?.as_str())?;
        }
    }
    Ok(text)
}

// Returns the row file followed by the scenario file.
pub(crate) fn rows_and_scenario(alloc: Global, seed: u64, size: u32) -> Result<String, NoMemory> {
    let mut words = Words::new(seed);
    let stations = stations(alloc, &mut words, size)?;
    let mut text = String::new(alloc);
    for s in 1..=size {
        text.push_str(rows_of(alloc, &mut words, s, size)?.as_str())?;
    }
    text.push_str(
        "{\"decrements\":[10,10,10,10,10,10,10,10,10,10],\"opening\":100,\"stations\":[",
    )?;
    text.push_str(stations.as_str())?;
    text.push_str(
        "],\"top\":17,\"version\":1,\"workers\":[{\"budget\":100000,\"kind\":\"cdcl\",\"seed\":0},",
    )?;
    text.push_str(format!(in alloc;
        "{{\"budget\":1000,\"kind\":\"walk\",\"seed\":{seed}}}]}}"
    )?.as_str())?;
    Ok(text)
}

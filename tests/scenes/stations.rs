//! The files of three stations on two channels, command lines that use these files, and texts of many stations.

use std::alloc::{AllocError as NoMemory, Global};

pub const COMMAND: &str = "repack run d.csv r.csv s.json out.csv chan.csv tr.txt";

pub const CHECK: &str = "repack check d.csv r.csv s.json";

pub const VERIFY: &str = "repack verify d.csv r.csv s.json tr.txt";

pub const LIVE: &str = "repack live d.csv r.csv s.json w.csv out.csv chan.csv tr.txt";

pub const SEEK: &str = "repack seek d.csv r.csv s.json chan.csv";

pub const VERIFY_LIVE: &str = "repack verify-live d.csv r.csv s.json w.csv tr.txt";

/// Each station may use both channels.
pub const DOMAINS: &str = "DOMAIN,1,14,15\nDOMAIN,2,14,15\nDOMAIN,3,14,15\n";

/// No two of the stations may share a channel.
pub const ROWS: &str = "CO,14,14,1,2,3\nCO,14,14,2,3\nCO,15,15,1,2,3\nCO,15,15,2,3\n";

/// The scenario's clock: prices of 100, 60 and 20.
pub const CLOCK: &str = "\"top\":15,\"opening\":100,\"decrements\":[40,40]";

/// The scenario's stations, each with its value.
pub const THREE: &str =
    "{\"id\":1,\"volume\":1,\"value\":50},{\"id\":2,\"volume\":1,\"value\":70},{\"id\":3,\"volume\":1,\"value\":10}";

/// The answers of owners whose stations are worth 50, 70 and 10 cents, at the prices of `CLOCK`.
pub const OWNERS: &str = "0,1,stay\n1,1,stay\n0,2,stay\n0,3,stay\n1,3,stay\n2,3,stay\n";

/// Two stations without values, which start on air.
pub const TWO_PLAIN: &str = "{\"id\":1,\"volume\":1},{\"id\":2,\"volume\":1}";

/// Three stations without values, which start on air but do not fit.
pub const THREE_PLAIN: &str =
    "{\"id\":1,\"volume\":1},{\"id\":2,\"volume\":1},{\"id\":3,\"volume\":1}";

/// A worker whose budget decides each test.
pub const MANY_LINES: &str = "{\"kind\":\"cdcl\",\"budget\":1000}";

/// A worker whose budget of one line leaves a test undecided: a refutation of the three stations takes two lines.
pub const ONE_LINE: &str = "{\"kind\":\"cdcl\",\"budget\":1}";

/// A transcript of the three stations.
pub const TRANSCRIPT: &str =
    "transcript 1\nstart empty\nfit 1 1 1\nat 1 14\nfit 1 2 1\nat 2 14\nfit 1 3 1\nat 3 15\nfit 2 1 1\nat 1 15\nlog 2 3 0 2\non 1 2 3\n13 -1 0 7 2 8 3 12 0\n14 0 13 1 9 2 10 3 11 0\nend 5\n";

/// The last step of `TRANSCRIPT`.
pub const LAST_STEP: &str =
    "log 2 3 0 2\non 1 2 3\n13 -1 0 7 2 8 3 12 0\n14 0 13 1 9 2 10 3 11 0\n";

/// Returns the text of a scenario with this clock, these stations and these workers.
pub fn scenario_text(
    alloc: Global,
    clock: &str,
    stations: &str,
    workers: &str,
) -> Result<String, NoMemory> {
    format!(in alloc; "{{\"version\":1,{clock},\"stations\":[{stations}],\"workers\":[{workers}]}}")
}

/// Returns domain rows for stations 1 to `count`, each with only channel 14.
pub fn domain_rows(alloc: Global, count: u32) -> Result<String, NoMemory> {
    let mut domains = String::new(alloc);
    for i in 0..count {
        domains.push_str(&format!(in alloc; "DOMAIN,{},14\n", i + 1)?)?;
    }
    Ok(domains)
}

/// Returns a scenario's stations 1 to `count`, each with volume 1 and a value of 0 cents.
pub fn free_stations(alloc: Global, count: u32) -> Result<String, NoMemory> {
    let mut stations = String::new(alloc);
    for i in 0..count {
        let comma = if i == 0 { "" } else { "," };
        stations.push_str(&format!(in alloc;
            "{comma}{{\"id\":{},\"volume\":1,\"value\":0}}",
            i + 1
        )?)?;
    }
    Ok(stations)
}

//! A command over the files of one auction, its run, and the check of its result against a row of a table.

use crate::scenes::change::{Change, replaced};
use crate::scenes::outside::{add, folder_of, is_kept, run_in};
use crate::scenes::stations::{
    CHECK, CLOCK, COMMAND, DOMAINS, LIVE, MANY_LINES, ROWS, THREE, VERIFY, VERIFY_LIVE,
    scenario_text,
};
use crate::scenes::run_outputs::{are_among, faults_text, held_text, kept_text, proof_text};
use outside_io::memory_folder::{MemoryFile, MemoryFolder};
use solver_gate::gate::{EmptyGate, Gate};
use std::alloc::{AllocError as NoMemory, Global};
use std::sync::Wait;
use std::thread::Threads;

/// The input of a run: the command line, the texts of two inputs, the parts of the scenario, and a change. An owners' file, a
/// transcript and a log are optional.
#[derive(Clone, Copy)]
pub struct Scene<'a> {
    pub command: &'a str,
    pub domains: &'a str,
    pub rows: &'a str,
    pub clock: &'a str,
    pub stations: &'a str,
    pub workers: &'a str,
    pub owners: Option<&'a str>,
    pub transcript: Option<&'a str>,
    pub log: Option<&'a str>,
    pub change: Change<'a>,
}

/// `run` on the three stations.
pub const RUN: Scene<'static> = Scene {
    command: COMMAND,
    domains: DOMAINS,
    rows: ROWS,
    clock: CLOCK,
    stations: THREE,
    workers: MANY_LINES,
    owners: None,
    transcript: None,
    log: None,
    change: Change::Nothing,
};

// Returns the scenario's text.
fn scenario_of(alloc: Global, scene: &Scene<'_>) -> Result<String, NoMemory> {
    let text = scenario_text(alloc, scene.clock, scene.stations, scene.workers)?;
    match scene.change {
        Change::Part(part, other) => replaced(alloc, &text, part, other),
        _ => Ok(text),
    }
}

// Adds the outputs of an earlier run to the files, if the change has them.
fn add_outputs(files: &mut Vec<MemoryFile>, change: Change<'_>) -> Result<(), NoMemory> {
    if let Change::Over(text, _) = change {
        add(files, change, "out.csv", text)?;
        add(files, change, "chan.csv", text)?;
        add(files, change, "tr.txt", text)?;
    }
    Ok(())
}

// Returns the files before the run.
fn files_of(alloc: Global, scene: &Scene<'_>) -> Result<Vec<MemoryFile>, NoMemory> {
    let scenario = scenario_of(alloc, scene)?;
    let mut files = Vec::new(alloc);
    add(&mut files, scene.change, "d.csv", scene.domains)?;
    add(&mut files, scene.change, "r.csv", scene.rows)?;
    add(&mut files, scene.change, "s.json", &scenario)?;
    if let Some(text) = scene.owners {
        add(&mut files, scene.change, "w.csv", text)?;
    }
    if let Some(text) = scene.transcript {
        add(&mut files, scene.change, "tr.txt", text)?;
    }
    if let Some(text) = scene.log {
        add(&mut files, scene.change, "p.lrat", text)?;
    }
    add_outputs(&mut files, scene.change)?;
    Ok(files)
}

// Returns the folder of a scene.
fn scene_folder(alloc: Global, scene: &Scene<'_>) -> Result<MemoryFolder, NoMemory> {
    let files = files_of(alloc, scene)?;
    folder_of(alloc, files, scene.change)
}

// Checks whether the transcript is unchanged, if there was one.
fn is_transcript_kept(folder: &MemoryFolder, scene: &Scene<'_>) -> bool {
    match scene.transcript {
        Some(text) => is_kept(folder, scene.change, "tr.txt", text),
        None => true,
    }
}

// Checks whether the owners' file is unchanged, if there was one.
fn are_owners_kept(folder: &MemoryFolder, scene: &Scene<'_>) -> bool {
    match scene.owners {
        Some(text) => is_kept(folder, scene.change, "w.csv", text),
        None => true,
    }
}

// Checks whether the inputs are unchanged.
fn are_kept(alloc: Global, scene: &Scene<'_>, folder: &MemoryFolder) -> Result<bool, NoMemory> {
    let scenario = scenario_of(alloc, scene)?;
    Ok(
        is_kept(folder, scene.change, "d.csv", scene.domains)
            && is_kept(folder, scene.change, "r.csv", scene.rows)
            && is_kept(folder, scene.change, "s.json", &scenario)
            && are_owners_kept(folder, scene)
            && is_transcript_kept(folder, scene),
    )
}

// Returns how many faults the folder has counted, if a call fails.
fn counted_text(
    alloc: Global,
    scene: &Scene<'_>,
    folder: &MemoryFolder,
) -> Result<String, NoMemory> {
    match scene.change.failing_call() {
        Some(_) => faults_text(alloc, folder),
        None => String::from_str(alloc, "no call fails"),
    }
}

/// Runs a scene. Returns the facts about the result, separated by "; ".
pub fn run<W: Threads + Wait + Sync>(
    rt: &W,
    alloc: Global,
    scene: &Scene<'_>,
) -> Result<String, NoMemory> {
    run_at(rt, alloc, scene, &EmptyGate)
}

// Runs a scene whose workers call this gate. Returns the facts about the result.
fn run_at<G: Gate + Sync, W: Threads + Wait + Sync>(
    rt: &W,
    alloc: Global,
    scene: &Scene<'_>,
    gate: &G,
) -> Result<String, NoMemory> {
    let mut folder = scene_folder(alloc, scene)?;
    let left = run_in(rt, alloc, scene.command, scene.change, &mut folder, gate)?;
    let inputs = kept_text(are_kept(alloc, scene, &folder)?);
    let files = files_text(alloc, scene, &folder)?;
    format!(in alloc; "{left}; {inputs}; {files}")
}

// Returns how many faults were counted, and the contents of the files that are not outputs of `run`.
fn files_text(alloc: Global, scene: &Scene<'_>, folder: &MemoryFolder) -> Result<String, NoMemory> {
    let counted = counted_text(alloc, scene, folder)?;
    let held = held_text(alloc, folder)?;
    let proof = proof_text(alloc, folder)?;
    format!(in alloc; "{counted}; {held}; {proof}")
}

// Runs the auction of a scene, live if it has an owners' file. Then verifies the stored transcript in the same folder. Returns the
// facts about the result.
fn run_and_verify<W: Threads + Wait + Sync>(
    rt: &W,
    alloc: Global,
    scene: &Scene<'_>,
) -> Result<String, NoMemory> {
    let (run, verify) = match scene.owners {
        Some(_) => (LIVE, VERIFY_LIVE),
        None => (COMMAND, VERIFY),
    };
    let mut folder = scene_folder(alloc, scene)?;
    let _ = run_in(rt, alloc, run, scene.change, &mut folder, &EmptyGate)?;
    run_in(rt, alloc, verify, scene.change, &mut folder, &EmptyGate)
}

/// Checks whether the run of a scene has these facts.
pub fn outputs_match<W: Threads + Wait + Sync>(
    rt: &W,
    alloc: Global,
    scene: &Scene<'_>,
    facts: &str,
) -> Result<bool, NoMemory> {
    outputs_match_with_gate(rt, alloc, scene, &EmptyGate, facts)
}

/// Checks whether the run of a scene whose workers call this gate has these facts.
pub fn outputs_match_with_gate<G: Gate + Sync, W: Threads + Wait + Sync>(
    rt: &W,
    alloc: Global,
    scene: &Scene<'_>,
    gate: &G,
    facts: &str,
) -> Result<bool, NoMemory> {
    let told = run_at(rt, alloc, scene, gate)?;
    Ok(are_among(facts, &told))
}

/// Checks whether the verification of a scene's own run has these facts.
pub fn verifies<W: Threads + Wait + Sync>(
    rt: &W,
    alloc: Global,
    scene: &Scene<'_>,
    facts: &str,
) -> Result<bool, NoMemory> {
    let told = run_and_verify(rt, alloc, scene)?;
    Ok(are_among(facts, &told))
}

/// Returns the facts of the first row that has a fact which is not true of its run.
pub fn first_untrue<'a, W: Threads + Wait + Sync>(
    rt: &W,
    alloc: Global,
    table: &[(Scene<'_>, &'a str)],
) -> Result<Option<&'a str>, NoMemory> {
    for (scene, facts) in table {
        if !outputs_match(rt, alloc, scene, facts)? {
            return Ok(Some(facts));
        }
    }
    Ok(None)
}

/// Returns the command line of the first row with a fact that is not true of that command on the three stations.
pub fn first_untrue_words<'a, W: Threads + Wait + Sync>(
    rt: &W,
    alloc: Global,
    table: &[(&'a str, &str)],
) -> Result<Option<&'a str>, NoMemory> {
    for &(command, facts) in table {
        let scene = Scene { command, ..RUN };
        if !outputs_match(rt, alloc, &scene, facts)? {
            return Ok(Some(command));
        }
    }
    Ok(None)
}

/// Returns the facts of the first row that has a fact which is not true of this scene with the row's change.
pub fn first_untrue_change<'a, W: Threads + Wait + Sync>(
    rt: &W,
    alloc: Global,
    scene: &Scene<'_>,
    table: &[(Change<'_>, &'a str)],
) -> Result<Option<&'a str>, NoMemory> {
    for &(change, facts) in table {
        let changed = Scene { change, ..*scene };
        if !outputs_match(rt, alloc, &changed, facts)? {
            return Ok(Some(facts));
        }
    }
    Ok(None)
}

/// Checks whether `run` and `check` reject these inputs with this line, and store nothing.
pub fn are_refused<W: Threads + Wait + Sync>(
    rt: &W,
    alloc: Global,
    scene: Scene<'_>,
    line: &str,
) -> Result<bool, NoMemory> {
    let facts = format!(in alloc;
        "status 5; said: {line}; nothing stored; no record; inputs kept"
    )?;
    let run = Scene {
        command: COMMAND,
        ..scene
    };
    let check = Scene {
        command: CHECK,
        ..scene
    };
    Ok(outputs_match(rt, alloc, &run, &facts)? && outputs_match(rt, alloc, &check, &facts)?)
}

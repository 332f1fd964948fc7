//! Which command the words of a line are, as plain text.

use command_words::proof_words::{ExportArgs, ImportArgs};
use command_words::resume_words::ResumeArgs;
use command_words::run_words::InputArgs;
use command_words::show_words::ShowArgs;
use command_words::words::{CommandArgs, WordsFault, read_words};
use std::alloc::{AllocError as NoMemory, Global};

// Returns the words of a line, which are separated by commas; an empty line has none.
fn words_of(alloc: Global, line: &str) -> Result<Vec<String>, NoMemory> {
    let mut words = Vec::new(alloc);
    if line.is_empty() {
        return Ok(words);
    }
    for word in line.split(',') {
        words.push(String::from_str(alloc, word)?)?;
    }
    Ok(words)
}

// Returns a command and its names, separated by commas.
fn joined(alloc: Global, command: &str, names: &[&str]) -> Result<String, NoMemory> {
    let mut text = String::from_str(alloc, command)?;
    for name in names {
        text.push_str(",")?;
        text.push_str(name)?;
    }
    Ok(text)
}

// Returns the start of a command's text: its name, with `live` if there is an owners' file, and the names of its input files.
fn inputs_text(alloc: Global, command: &str, files: InputArgs<'_>) -> Result<String, NoMemory> {
    let InputArgs {
        domains,
        rows,
        scenario,
        owners,
    } = files;
    match owners {
        Some(owners) => {
            let start = format!(in alloc; "command live {command}")?;
            joined(alloc, &start, &[domains, rows, scenario, owners])
        }
        None => {
            let start = format!(in alloc; "command {command}")?;
            joined(alloc, &start, &[domains, rows, scenario])
        }
    }
}

// Returns a command's text: its name and its file names in order, separated by commas.
fn command_text(alloc: Global, command: CommandArgs<'_>) -> Result<String, NoMemory> {
    match command {
        CommandArgs::Run(files) => {
            let inputs = inputs_text(alloc, "run", files.inputs)?;
            let names = [files.result, files.channels, files.transcript];
            joined(alloc, &inputs, &names)
        }
        CommandArgs::Check(files) => inputs_text(alloc, "check", files),
        CommandArgs::Verify(files) => {
            let inputs = inputs_text(alloc, "verify", files.inputs)?;
            joined(alloc, &inputs, &[files.transcript])
        }
        CommandArgs::Show(files) => show_text(alloc, files),
        CommandArgs::Resume(files) => resume_text(alloc, files),
        CommandArgs::Seek(files) => {
            let names = [files.domains, files.rows, files.scenario, files.channels];
            joined(alloc, "command seek", &names)
        }
        CommandArgs::Batch(files) => {
            let names = [files.domains, files.rows, files.list];
            joined(alloc, "command batch", &names)
        }
        CommandArgs::Make(files) => {
            let (seed, size, outputs) = (files.seed, files.size, files.outputs);
            let start = format!(in alloc; "command make,{seed},{size}")?;
            let names = [outputs.domains, outputs.rows, outputs.scenario];
            joined(alloc, &start, &names)
        }
        CommandArgs::Export(files) => export_text(alloc, files),
        CommandArgs::Import(files) => import_text(alloc, files),
    }
}

// Returns the text of `show`.
fn show_text(alloc: Global, files: ShowArgs<'_>) -> Result<String, NoMemory> {
    let inputs = inputs_text(alloc, "show", files.shown.inputs)?;
    let names = [files.shown.transcript, files.result, files.channels];
    joined(alloc, &inputs, &names)
}

// Returns the text of `resume`.
fn resume_text(alloc: Global, files: ResumeArgs<'_>) -> Result<String, NoMemory> {
    let run_files = files.run_files;
    let inputs = inputs_text(alloc, "resume", run_files.inputs)?;
    let names = [
        files.prefix,
        run_files.result,
        run_files.channels,
        run_files.transcript,
    ];
    joined(alloc, &inputs, &names)
}

// Returns the text of `export`, with the step after the names.
fn export_text(alloc: Global, files: ExportArgs<'_>) -> Result<String, NoMemory> {
    let step = files.step;
    let last = format!(in alloc; "step {step}")?;
    let inputs = files.shown.inputs;
    let names = [
        inputs.domains,
        inputs.rows,
        inputs.scenario,
        files.shown.transcript,
        files.formula,
        last.as_str(),
    ];
    joined(alloc, "command export", &names)
}

// Returns the text of `import`, with the step after the names.
fn import_text(alloc: Global, files: ImportArgs<'_>) -> Result<String, NoMemory> {
    let step = files.step;
    let last = format!(in alloc; "step {step}")?;
    let inputs = files.shown.inputs;
    let names = [
        inputs.domains,
        inputs.rows,
        inputs.scenario,
        files.shown.transcript,
        files.proof,
        files.result,
        files.transcript,
        last.as_str(),
    ];
    joined(alloc, "command import", &names)
}

/// Checks whether this line is a command, and `wanted` its first name of a file to store that is given twice.
pub fn is_given_twice(alloc: Global, line: &str, wanted: Option<&str>) -> Result<bool, NoMemory> {
    let words = words_of(alloc, line)?;
    match read_words(alloc, &words) {
        Ok(command) => Ok(command.given_twice() == wanted),
        Err(WordsFault::Refused(_)) => Ok(false),
        Err(WordsFault::NoMemory) => Err(NoMemory),
    }
}

/// Returns the text of the command that the words are, or the text of their error.
pub fn read(alloc: Global, line: &str) -> Result<String, NoMemory> {
    let words = words_of(alloc, line)?;
    match read_words(alloc, &words) {
        Ok(command) => command_text(alloc, command),
        Err(WordsFault::Refused(text)) => Ok(text),
        Err(WordsFault::NoMemory) => Err(NoMemory),
    }
}

//! Numbered scripts with their outputs in a folder: what the programs `vectors`, `mended` and `converted` have in common.

use std::{env, fs, io, path::Path, process};

/// A script and its name.
pub type Named = (&'static str, Vec<u8>);

/// An output of a script, and the extension of its file.
pub type Output = (&'static str, Vec<u8>);

/// Writes scripts with their outputs to the folder that the command line names, and their names to its file `names`: the named
/// ones, or as many as the command line says, then of those that `more` gives by number.
pub fn fill(
    named: Vec<Named>,
    outputs: impl Fn(&[u8]) -> Vec<Output>,
    more: impl FnMut(usize) -> Named,
) {
    let mut arguments = env::args();
    let program = arguments.next().unwrap_or_default();
    let folder = arguments.next();
    let count = arguments.next().map(|count| count.parse::<usize>());
    let (Some(folder), None | Some(Ok(_))) = (folder, &count) else {
        eprintln!("usage: {program} FOLDER [COUNT]");
        process::exit(2);
    };
    let count = count.and_then(Result::ok).unwrap_or(named.len());
    let scripts = named.into_iter().chain((0..).map(more)).take(count);
    match write_all(Path::new(&folder), scripts, outputs) {
        Ok(()) => println!("{count} scripts"),
        Err(error) => {
            eprintln!("{folder}: {error}");
            process::exit(1);
        }
    }
}

fn write_all(
    folder: &Path,
    scripts: impl Iterator<Item = Named>,
    outputs: impl Fn(&[u8]) -> Vec<Output>,
) -> io::Result<()> {
    fs::create_dir_all(folder)?;
    let mut names = String::new();
    for (n, (name, script)) in scripts.enumerate() {
        let name = format!("{:03}-{name}", n + 1);
        for (extension, bytes) in outputs(&script) {
            fs::write(folder.join(format!("{name}.{extension}")), bytes)?;
        }
        fs::write(folder.join(format!("{name}.script")), script)?;
        names.push_str(&name);
        names.push('\n');
    }
    fs::write(folder.join("names"), names)
}

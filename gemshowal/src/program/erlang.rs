//! The commands of the Erlang application, which this program hands over to it.

use crate::Failure;
use std::env;
use std::ffi::OsString;
use std::io;
use std::path::PathBuf;
use std::process::Command;

pub(crate) const COMMANDS: [&str; 3] = ["collect", "watch", "convert"];
const PROGRAM: &str = "seqaudit-node";
/// The variable that tells the application which `gemshowal` to ask.
const ASKED: &str = "GEMSHOWAL";

/// Runs the application's command in place of this program, which the application asks in turn
/// unless the variable says another. Returns only if there is none to run.
pub(crate) fn hand_over(word: &str, words: impl Iterator<Item = OsString>) -> Failure {
    let Some(program) = find(PROGRAM) else {
        return Failure::Program(format!(
            "{word} is a command of the Erlang application, and there is no {PROGRAM} beside this \
             program or on the path: make -C erlang builds it"
        ));
    };
    let mut command = Command::new(&program);
    if let (None, Ok(own)) = (env::var_os(ASKED), env::current_exe()) {
        command.env(ASKED, own);
    }
    let reason = replace_by(command.arg(word).args(words));
    Failure::Program(format!("{} can't be run: {reason}", program.display()))
}

#[cfg(unix)]
fn replace_by(command: &mut Command) -> io::Error {
    std::os::unix::process::CommandExt::exec(command)
}

#[cfg(not(unix))]
fn replace_by(_: &mut Command) -> io::Error {
    io::ErrorKind::Unsupported.into()
}

/// Finds the program of this name next to the running one, else the first on the path.
pub(crate) fn find(name: &str) -> Option<PathBuf> {
    let own = env::current_exe().ok();
    let beside = own.as_deref().and_then(|path| path.parent()).map(PathBuf::from);
    let path = env::var_os("PATH").unwrap_or_default();
    let folders = beside.into_iter().chain(env::split_paths(&path));
    folders.map(|folder| folder.join(name)).find(|file| file.is_file())
}

// Which mlrun is run where none is named: the script tools/program of the same repository prints its path, and builds it where it must.

use crate::stop::Stop;
use std::ffi::OsString;
use std::os::unix::ffi::OsStringExt;
use std::process::{Command, Stdio};

pub fn find() -> Result<OsString, Stop> {
    let failed = |why: String| Stop::Program(format!("tools/program: {why}; --with names a program"));
    // This program stands in target/tools of the repository.
    let me = std::env::current_exe().map_err(|fault| failed(fault.to_string()))?;
    let home = me.ancestors().nth(3).ok_or_else(|| failed("not found".to_string()))?;
    let script = home.join("tools/program");
    let said = Command::new(&script).stdin(Stdio::null()).stderr(Stdio::inherit()).output();
    let said = said.map_err(|fault| failed(format!("not started: {fault}")))?;
    let mut path = said.stdout;
    while path.last() == Some(&b'\n') {
        path.pop();
    }
    match path.is_empty() || path.contains(&b'\n') {
        _ if !said.status.success() => Err(failed(format!("{}", said.status))),
        true => Err(failed("it printed no path".to_string())),
        false => Ok(OsString::from_vec(path)),
    }
}

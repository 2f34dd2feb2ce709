//! Instructions a call, by callgrind: this program runs itself under valgrind,
//! which writes one file for each count.

use crate::cases::Case;
use crate::measure::{Bench, COUNTED};
use crate::{Library, Reference};
use std::path::{Path, PathBuf};
use std::process::{Command, Stdio};

/// The argument that makes this program the counted one.
pub const COUNT: &str = "count-under-valgrind";

/// Makes the calls of every case on both sides.
pub fn make_calls(cases: &[&Case]) {
    for case in cases {
        Bench::<Library>::new(case).count();
        Bench::<Reference>::new(case).count();
    }
}

/// Instructions a call of each case, of which there are `cases`: library,
/// reference.
pub fn counts(cases: usize) -> Result<Vec<[f64; 2]>, String> {
    let folder = std::env::temp_dir().join(format!("niulassenc-bench-{}", std::process::id()));
    std::fs::create_dir_all(&folder).map_err(|e| format!("{}: {e}", folder.display()))?;
    let counted = run(&folder).and_then(|()| read(&folder, cases));
    let _ = std::fs::remove_dir_all(&folder);
    counted
}

fn out_file(folder: &Path) -> PathBuf {
    folder.join("out")
}

fn run(folder: &Path) -> Result<(), String> {
    let program = std::env::current_exe().map_err(|e| e.to_string())?;
    let output = Command::new("valgrind")
        .arg("--tool=callgrind")
        .arg(format!(
            "--callgrind-out-file={}",
            out_file(folder).display()
        ))
        .args(["--collect-atstart=no", "--toggle-collect=*counted_*"])
        .arg("--dump-before=*next_count*")
        .arg(program)
        .arg(COUNT)
        .stdout(Stdio::null())
        .output()
        .map_err(|e| format!("valgrind: {e}"))?;
    if output.status.success() {
        Ok(())
    } else {
        Err(String::from_utf8_lossy(&output.stderr).into_owned())
    }
}

/// Files are numbered from 1, two for each case and side: what the warming up
/// took, then what is wanted.
fn read(folder: &Path, cases: usize) -> Result<Vec<[f64; 2]>, String> {
    let wanted = |case: usize, side: usize| total(folder, 4 * case + 2 * side + 2);
    (0..cases)
        .map(|case| Ok([wanted(case, 0)?, wanted(case, 1)?]))
        .collect()
}

fn total(folder: &Path, number: usize) -> Result<f64, String> {
    let mut path = out_file(folder).into_os_string();
    path.push(format!(".{number}"));
    let path = PathBuf::from(path);
    let text = std::fs::read_to_string(&path).map_err(|e| format!("{}: {e}", path.display()))?;
    let line = text.lines().find_map(|line| line.strip_prefix("totals: "));
    let total: f64 = line
        .and_then(|number| number.trim().parse().ok())
        .ok_or("a file of callgrind without its total")?;
    Ok(total / COUNTED as f64)
}

//! Saves of the state file: the proved store, a program of its own since files need the runtime, beside the same writes
//! and syncs by hand. Both files lie in one folder. The same program makes a member refute suspicions, which costs a save a
//! block of numbers.

use std::fs::{self, File, OpenOptions};
use std::io::{self, BufRead, BufReader, Write};
use std::os::unix::fs::FileExt;
use std::path::Path;
use std::process::{Child, ChildStdin, ChildStdout, Command, Stdio};
use std::time::Instant;

/// The saves of one run.
const SAVES: u32 = 5;

/// The refutations of one run.
const REFUTATIONS: u32 = 64;

/// Where the two slots have their body and their gate.
const SLOTS: [(u64, u64); 2] = [(4096, 8192), (12288, 16384)];

const OPEN: u8 = 0xa5;

/// The file of the plain side.
struct Bare {
    file: File,
    ceiling: u64,
}

impl Bare {
    fn create(path: &Path) -> io::Result<Bare> {
        let file = OpenOptions::new()
            .read(true)
            .write(true)
            .create(true)
            .truncate(true)
            .open(path)?;
        let mut bare = Bare { file, ceiling: 0 };
        bare.file.set_len(16385)?;
        bare.save()?;
        bare.save()?;
        Ok(bare)
    }

    fn put(&mut self, at: u64, bytes: &[u8]) -> io::Result<()> {
        self.file.write_all_at(bytes, at)?;
        self.file.sync_all()
    }

    /// The gate of one slot, its body and its gate, each written and synced.
    fn save(&mut self) -> io::Result<()> {
        self.ceiling += 1;
        let (body_at, gate_at) = SLOTS[self.ceiling as usize % 2];
        let mut body = [0; 16];
        body[..8].copy_from_slice(&self.ceiling.to_be_bytes());
        body[8..].copy_from_slice(&(!self.ceiling).to_be_bytes());
        self.put(gate_at, &[0])?;
        self.put(body_at, &body)?;
        self.put(gate_at, &[OPEN])
    }

    fn timed(&mut self) -> io::Result<f64> {
        let start = Instant::now();
        for _ in 0..SAVES {
            self.save()?;
        }
        Ok(start.elapsed().as_nanos() as f64 / f64::from(SAVES))
    }
}

/// The proved program, which takes turns on demand and tells the time that they took.
struct Proved {
    child: Child,
    asks: ChildStdin,
    answers: BufReader<ChildStdout>,
}

impl Proved {
    /// The program over a new file. Its turns are saves or, with a block, refutations.
    fn start(program: &Path, file: &Path, block: Option<u64>) -> io::Result<Proved> {
        if file.exists() {
            fs::remove_file(file)?;
        }
        let mut child = Command::new(program)
            .arg(file)
            .args(block.map(|block| block.to_string()))
            .stdin(Stdio::piped())
            .stdout(Stdio::piped())
            .spawn()?;
        let gone = || io::Error::other("the program has no pipes");
        let asks = child.stdin.take().ok_or_else(gone)?;
        let answers = BufReader::new(child.stdout.take().ok_or_else(gone)?);
        Ok(Proved { child, asks, answers })
    }

    fn timed(&mut self, turns: u32) -> io::Result<f64> {
        writeln!(self.asks, "{turns}")?;
        let mut line = String::new();
        self.answers.read_line(&mut line)?;
        let nanos: f64 = line.trim().parse().map_err(io::Error::other)?;
        Ok(nanos / f64::from(turns))
    }

    fn finish(self) -> io::Result<()> {
        let Proved {
            mut child,
            asks,
            answers: _,
        } = self;
        drop(asks);
        child.wait()?;
        Ok(())
    }
}

/// The least nanoseconds of a proved save and of a bare one, in so many rounds.
pub fn measure(program: &Path, folder: &Path, rounds: u32) -> io::Result<(f64, f64)> {
    let (ours, theirs) = (folder.join("proved.state"), folder.join("bare.state"));
    let mut bare = Bare::create(&theirs)?;
    let mut proved = Proved::start(program, &ours, None)?;
    let (mut least_ours, mut least_theirs) = (f64::MAX, f64::MAX);
    for _ in 0..rounds {
        least_ours = proved.timed(SAVES)?.min(least_ours);
        least_theirs = bare.timed()?.min(least_theirs);
    }
    proved.finish()?;
    fs::remove_file(&ours)?;
    fs::remove_file(&theirs)?;
    Ok((least_ours, least_theirs))
}

/// The least nanoseconds of a refutation, a save reserving so many numbers, in so many rounds.
pub fn refute(program: &Path, folder: &Path, block: u64, rounds: u32) -> io::Result<f64> {
    let file = folder.join("refuted.state");
    let mut proved = Proved::start(program, &file, Some(block))?;
    let mut least = f64::MAX;
    for _ in 0..rounds {
        least = proved.timed(REFUTATIONS)?.min(least);
    }
    proved.finish()?;
    fs::remove_file(&file)?;
    Ok(least)
}

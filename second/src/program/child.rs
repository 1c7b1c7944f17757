//! The program as a child process: its input is given to it in pieces, and what it prints is taken
//! from it at the same time, so that neither has to wait for the other for good.

use super::sessions::{Manner, Session};
use super::{Output, Program};
use crate::subject::EVENT;
use std::fs::{self, File};
use std::io::{self, ErrorKind, Read, Write};
use std::os::fd::AsRawFd;
use std::os::unix::fs::PermissionsExt;
use std::path::{Path, PathBuf};
use std::process::{Child, ChildStdin, ChildStdout, Command, ExitStatus, Stdio};
use std::sync::atomic::{AtomicBool, Ordering};
use std::sync::{Condvar, Mutex, MutexGuard};
use std::thread;
use std::time::{Duration, Instant};

/// How many pieces a plan has that comes through a pipe, and the time between them.
const PLAN_PIECES: usize = 3;
const PAUSE: Duration = Duration::from_millis(30);

/// A program that can be started.
pub struct Executable {
    /// The command and its arguments.
    pub command: Vec<PathBuf>,
    /// Where it is started, and where it finds `plan.bin`.
    pub folder: PathBuf,
    /// How long it may keep still before it counts as hanging.
    pub patience: Duration,
}

impl Executable {
    /// A program by its path, in a folder of its own.
    pub fn new(path: &Path) -> Result<Self, String> {
        let words = |error| format!("'{}' can't be run: {error}", path.display());
        let whole = startable(path).map_err(words)?;
        let name = format!("second-program-{}", std::process::id());
        let folder = std::env::temp_dir().join(name);
        let words = |error| format!("no folder can be made for it: {error}");
        fs::create_dir_all(&folder).map_err(words)?;
        Ok(Executable {
            command: vec![whole],
            folder,
            patience: Duration::from_secs(20),
        })
    }

    /// Lays the session out in the folder, for the program and for whoever looks for a mistake.
    fn lay_out(&self, session: &Session) -> io::Result<()> {
        let plan = self.folder.join("plan.bin");
        if plan.exists() {
            fs::remove_file(&plan)?;
        }
        if let Some(bytes) = &session.story.plan {
            fs::write(plan, bytes)?;
        }
        fs::write(self.folder.join("events.bin"), &session.story.input)
    }

    /// Puts a named pipe in the place of `plan.bin`. Open for both, it can be opened by the
    /// program without waiting, and does not end for it before it is closed here.
    fn pipe(&self) -> io::Result<File> {
        let plan = self.folder.join("plan.bin");
        fs::remove_file(&plan)?;
        let status = Command::new("mkfifo").arg(&plan).status()?;
        if !status.success() {
            return Err(io::Error::other(format!("mkfifo ends with {status}")));
        }
        File::options().read(true).write(true).open(plan)
    }

    /// Where standard error goes. A file need not be read at the same time, and whoever keeps it open
    /// keeps nobody waiting.
    fn told(&self) -> PathBuf {
        self.folder.join("told.txt")
    }

    fn start(&self) -> io::Result<Child> {
        Command::new(&self.command[0])
            .args(&self.command[1..])
            .current_dir(&self.folder)
            .stdin(Stdio::piped())
            .stdout(Stdio::piped())
            .stderr(File::create(self.told())?)
            .spawn()
    }

    /// Runs it from its start to its end.
    fn printed(&self, session: &Session) -> Result<Vec<u8>, String> {
        let words = |error: io::Error| format!("{}: {error}", self.command[0].display());
        self.lay_out(session).map_err(words)?;
        let is_piped = session.is_plan_piped && CAN_ASK;
        let pipe = is_piped.then(|| self.pipe()).transpose().map_err(words)?;
        let mut child = self.start().map_err(words)?;
        let outcome = converse(&mut child, session, pipe, self.patience);
        if outcome.is_err() {
            // It may have ended by itself; then there is nothing to be stopped.
            let _ = child.kill();
        }
        let status = ended(&mut child, self.patience);
        if is_piped {
            // The plan in place of the pipe, for whoever looks for a mistake.
            self.lay_out(session).map_err(words)?;
        }
        let printed = outcome?;
        match status? {
            status if status.success() => Ok(printed),
            status => Err(format!("it ends with {status} and not with status 0")),
        }
    }
}

/// The whole path of a program, since it is started in another folder; or why it can't be.
fn startable(path: &Path) -> io::Result<PathBuf> {
    let whole = path.canonicalize()?;
    let about = whole.metadata()?;
    if !about.is_file() {
        return Err(io::Error::other("it is no file"));
    }
    if about.permissions().mode() & 0o111 == 0 {
        return Err(io::Error::other("it is not executable"));
    }
    Ok(whole)
}

impl Program for Executable {
    fn run(&self, session: &Session) -> Output {
        let printed = self.printed(session);
        match fs::read(self.told()) {
            Ok(told) => Output { printed, told },
            Err(error) => Output {
                printed: printed.and(Err(format!("its standard error can't be read: {error}"))),
                told: vec![],
            },
        }
    }
}

/// What has happened so far.
#[derive(Default)]
struct Progress {
    printed: Vec<u8>,
    lines: usize,
    written: usize,
    /// All is written, or the program takes no more.
    is_written: bool,
    /// The program has closed its output.
    is_printed: bool,
}

/// The progress as the threads see it: one writes the plan where it comes through a pipe, one writes
/// the input, one reads, one looks after all.
#[derive(Default)]
struct Watch {
    progress: Mutex<Progress>,
    changed: Condvar,
    /// The same as in the progress, for those who look often.
    is_printed: AtomicBool,
}

impl Watch {
    fn look(&self) -> MutexGuard<'_, Progress> {
        self.progress
            .lock()
            .expect("no thread stops while it looks at the progress")
    }

    fn change(&self, change: impl FnOnce(&mut Progress)) {
        change(&mut self.look());
        self.changed.notify_all();
    }

    /// Waits for so many lines, or for the end of the output.
    fn wait_for_lines(&self, lines: usize) {
        let waits = |progress: &mut Progress| progress.lines < lines && !progress.is_printed;
        let waited = self.changed.wait_while(self.look(), waits);
        drop(waited.expect("no thread stops while it looks at the progress"));
    }
}

/// Gives the program its input and takes what it prints. Fails if it keeps still for too long.
fn converse(
    child: &mut Child,
    session: &Session,
    pipe: Option<File>,
    patience: Duration,
) -> Result<Vec<u8>, String> {
    let stdin = child.stdin.take().ok_or("it has no input")?;
    let stdout = child.stdout.take().ok_or("it has no output")?;
    let watch = Watch::default();
    thread::scope(|scope| {
        scope.spawn(|| take_output(stdout, &watch));
        let planner = scope.spawn(|| give_plan(pipe, session.story.file(), &watch));
        let writer = scope.spawn(|| give_input(stdin, session, &watch));
        let patient = look_after(&watch, patience);
        if patient.is_err() {
            // The other threads wait for it; its end sets them free.
            let _ = child.kill();
        }
        let planned = planner.join().expect("the thread that plans does not stop");
        let written = writer.join().expect("the thread that writes does not stop");
        patient?;
        planned.map_err(|error| format!("its plan can't be written: {error}"))?;
        written.map_err(|error| format!("its input can't be written: {error}"))
    })?;
    let printed = std::mem::take(&mut watch.look().printed);
    Ok(printed)
}

/// Until all is written and printed; fails if nothing happens for too long.
fn look_after(watch: &Watch, patience: Duration) -> Result<(), String> {
    let mut progress = watch.look();
    let mut before = (0, 0);
    while !(progress.is_written && progress.is_printed) {
        let waited = watch.changed.wait_timeout(progress, patience);
        let (now, time) = waited.expect("no thread stops while it looks at the progress");
        progress = now;
        let here = (progress.written, progress.lines);
        if time.timed_out() && here == before {
            return Err(format!(
                "it keeps still for {} s: it has been given {} bytes and has printed {} lines",
                patience.as_secs_f32(),
                progress.written,
                progress.lines
            ));
        }
        before = here;
    }
    Ok(())
}

fn take_output(mut stdout: ChildStdout, watch: &Watch) {
    let mut buffer = vec![0; 1 << 16];
    // A pipe that can't be read has ended for us.
    while let Ok(count @ 1..) = stdout.read(&mut buffer) {
        watch.change(|progress| {
            let bytes = &buffer[..count];
            progress.printed.extend_from_slice(bytes);
            progress.lines += bytes.iter().filter(|&&byte| byte == b'\n').count();
        });
    }
    watch.is_printed.store(true, Ordering::Release);
    watch.change(|progress| progress.is_printed = true);
}

/// Gives the program its plan in pieces, where there is a pipe for it: each when the one before has
/// been read, and some time after that.
fn give_plan(pipe: Option<File>, plan: &[u8], watch: &Watch) -> io::Result<()> {
    let Some(mut pipe) = pipe else { return Ok(()) };
    for piece in plan.chunks(plan.len().div_ceil(PLAN_PIECES)) {
        thread::sleep(PAUSE);
        pipe.write_all(piece)?;
        wait_until_read(&pipe, watch);
    }
    thread::sleep(PAUSE);
    Ok(())
}

fn give_input(mut stdin: ChildStdin, session: &Session, watch: &Watch) -> io::Result<()> {
    let outcome = give_pieces(&mut stdin, session, watch);
    // The input ends here, before anyone is told so.
    drop(stdin);
    watch.change(|progress| progress.is_written = true);
    match outcome {
        // It reads no further, which is its right where the plan can't be read.
        Err(error) if error.kind() == ErrorKind::BrokenPipe => Ok(()),
        outcome => outcome,
    }
}

fn give_pieces(stdin: &mut ChildStdin, session: &Session, watch: &Watch) -> io::Result<()> {
    let is_answered = session.manner == Manner::Answered;
    let mut written = 0;
    for (number, piece) in session.pieces().into_iter().enumerate() {
        if is_answered {
            // The line for the plan comes before any event.
            watch.wait_for_lines(1 + written / EVENT);
        }
        stdin.write_all(piece)?;
        written += piece.len();
        stdin.flush()?;
        if session.manner == Manner::LockStep {
            wait_until_read(stdin, watch);
        }
        // Seldom enough to cost nothing, often enough to show that it goes on.
        if is_answered || number % 64 == 0 || piece.len() > 100 {
            watch.change(|progress| progress.written = written);
        }
    }
    Ok(())
}

/// Waits until the program has read all that was written.
fn wait_until_read(pipe: &impl AsRawFd, watch: &Watch) {
    let mut looks = 0;
    while unread(pipe) > 0 && !watch.is_printed.load(Ordering::Acquire) {
        looks += 1;
        if looks < 1000 {
            thread::yield_now();
        } else {
            thread::sleep(Duration::from_micros(200));
        }
    }
}

/// True where a pipe can be asked how full it is.
const CAN_ASK: bool = cfg!(target_os = "linux");

/// How many bytes stand in the pipe.
#[cfg(target_os = "linux")]
fn unread(pipe: &impl AsRawFd) -> i32 {
    use std::ffi::{c_int, c_ulong};
    extern "C" {
        fn ioctl(file: c_int, request: c_ulong, ...) -> c_int;
    }
    const FIONREAD: c_ulong = 0x541B;
    let mut count: c_int = 0;
    // Safety: the file is open as long as the pipe is lent, and the request writes one number.
    let outcome = unsafe { ioctl(pipe.as_raw_fd(), FIONREAD, &mut count as *mut c_int) };
    assert!(outcome == 0, "the pipe can't be asked how full it is");
    count
}

/// Elsewhere the pieces follow each other freely.
#[cfg(not(target_os = "linux"))]
fn unread(_: &impl AsRawFd) -> i32 {
    0
}

/// Waits for the end of a program that has closed its output.
fn ended(child: &mut Child, patience: Duration) -> Result<ExitStatus, String> {
    let start = Instant::now();
    loop {
        match child.try_wait() {
            Ok(Some(status)) => return Ok(status),
            Err(error) => return Err(format!("its end can't be awaited: {error}")),
            Ok(None) if start.elapsed() > patience => {
                let _ = child.kill();
                let _ = child.wait();
                return Err("it has closed its output and does not end".to_string());
            }
            Ok(None) => thread::sleep(Duration::from_micros(100)),
        }
    }
}

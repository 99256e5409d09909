//! Runs a program on the bytes of one file, handed over in different ways, and tells what it did. Pieces are kept apart, so
//! that short reads do not depend on who is faster: bytes by a pipe in packet mode, where what is written at once is read
//! alone; longer pieces, of which a packet would lose what a short read leaves, by waiting until the pipe is empty.

use std::fs::File;
use std::io::{Read, Write};
use std::os::fd::{AsRawFd, FromRawFd, OwnedFd};
use std::process::{Child, Command, ExitStatus, Stdio};
use std::sync::atomic::{AtomicBool, AtomicUsize, Ordering::Relaxed};
use std::time::{Duration, Instant};

/// How a file is handed over: through a pipe that holds all of it, as a file on disk, in odd pieces, or a byte at a time.
#[derive(Clone, Copy, Debug, PartialEq)]
pub enum Way {
    Pipe,
    Disk,
    Pieces,
    Bytes,
}

pub const WAYS: [(Way, &str); 4] = [
    (Way::Pipe, "through a pipe at once"),
    (Way::Disk, "from a file on disk"),
    (Way::Pieces, "through a pipe in odd pieces"),
    (Way::Bytes, "through a pipe byte by byte"),
];

/// What a program did: what it printed, how it ended (nothing where it was stopped), and whether it took all bytes.
pub struct Ran {
    pub out: Vec<u8>,
    pub status: Option<ExitStatus>,
    pub took_all: bool,
}

/// A program that takes longer hangs. One run takes some milliseconds. One that hung so often is not run again.
const LIMIT: Duration = Duration::from_secs(10);
const HANGS: usize = 5;
static HUNG: AtomicUsize = AtomicUsize::new(0);

/// More than the program may print.
const OUTPUT: usize = 4096;

/// What a pipe holds.
const HELD: usize = 65_536;

extern "C" {
    fn pipe2(ends: *mut i32, flags: i32) -> i32;
    fn ioctl(fd: i32, request: std::ffi::c_ulong, ...) -> i32;
    fn poll(what: *mut PollFd, count: std::ffi::c_ulong, milliseconds: i32) -> i32;
}

#[repr(C)]
struct PollFd {
    fd: i32,
    events: i16,
    revents: i16,
}

const CLOSE_ON_EXEC: i32 = 0o2000000;
const POLL_IN: i16 = 1;
const BYTES_HELD: std::ffi::c_ulong = 0x541b;

#[cfg(target_arch = "aarch64")]
const PACKETS: i32 = 0o200000;
#[cfg(not(target_arch = "aarch64"))]
const PACKETS: i32 = 0o40000;

/// The ends of a pipe: to read from, to write to.
fn pipe(packets: bool) -> std::io::Result<(OwnedFd, File)> {
    let mut ends = [0; 2];
    let flags = CLOSE_ON_EXEC | if packets { PACKETS } else { 0 };
    // SAFETY: pipe2 writes two descriptors, which are ours alone.
    unsafe {
        if pipe2(ends.as_mut_ptr(), flags) != 0 {
            return Err(std::io::Error::last_os_error());
        }
        Ok((OwnedFd::from_raw_fd(ends[0]), File::from_raw_fd(ends[1])))
    }
}

/// Runs the program. The place on disk is one that no other run uses meanwhile.
pub fn run(program: &[String], input: &[u8], way: Way, place: &str) -> Result<Ran, String> {
    if HUNG.load(Relaxed) >= HANGS {
        return Err(format!("it is not run: it hung {HANGS} times"));
    }
    let failed = |e: std::io::Error| e.to_string();
    match way {
        Way::Disk => {
            std::fs::write(place, input).map_err(failed)?;
            let file = File::open(place).map_err(failed)?;
            ended(started(program, file.into())?, true)
        }
        Way::Pipe if input.len() <= HELD => {
            let (end, mut to) = pipe(false).map_err(failed)?;
            to.write_all(input).map_err(failed)?;
            drop(to);
            ended(started(program, end.into())?, true)
        }
        _ => {
            let (end, to) = pipe(way == Way::Bytes).map_err(failed)?;
            let child = started(program, end.into())?;
            let over = AtomicBool::new(false);
            std::thread::scope(|scope| {
                let writer = scope.spawn(|| handed_over(to, input, way, &over));
                let ran = ended(child, true);
                over.store(true, Relaxed);
                Ok(Ran { took_all: writer.join().expect("the writer"), ..ran? })
            })
        }
    }
}

fn started(program: &[String], input: Stdio) -> Result<Child, String> {
    let mut command = Command::new(&program[0]);
    command.args(&program[1..]).stdin(input).stdout(Stdio::piped()).stderr(Stdio::null());
    command.spawn().map_err(|e| format!("it does not start: {e}"))
}

/// Writes all bytes, each piece by itself; whether they were taken before the program was over.
fn handed_over(mut to: File, input: &[u8], way: Way, over: &AtomicBool) -> bool {
    let mut sizes = match way {
        Way::Bytes => [1].iter().cycle(),
        Way::Pieces => [1, 2, 4, 1, 31, 3, 8, 9, 127, 5, 64, 700, 13].iter().cycle(),
        _ => [HELD].iter().cycle(),
    };
    let mut rest = input;
    while !rest.is_empty() {
        let (piece, behind) = rest.split_at(rest.len().min(*sizes.next().expect("a size")));
        if to.write_all(piece).is_err() {
            return false;
        }
        while way == Way::Pieces && held(&to) > 0 {
            if over.load(Relaxed) {
                return false;
            }
            std::thread::yield_now();
        }
        rest = behind;
    }
    true
}

/// The bytes in a pipe that nobody has read yet.
fn held(pipe: &File) -> i32 {
    let mut count = 0;
    // SAFETY: the request writes one int.
    unsafe { ioctl(pipe.as_raw_fd(), BYTES_HELD, &mut count) };
    count
}

/// Reads what the program prints and waits for its end, both within the limit; after that it is stopped.
fn ended(mut child: Child, took_all: bool) -> Result<Ran, String> {
    let until = Instant::now() + LIMIT;
    let mut output = child.stdout.take().expect("standard output");
    let mut out = vec![];
    let mut status = None;
    if read_until(&mut output, &mut out, until) {
        status = child.try_wait().map_err(|e| e.to_string())?;
        while status.is_none() && Instant::now() < until {
            std::thread::sleep(Duration::from_micros(50));
            status = child.try_wait().map_err(|e| e.to_string())?;
        }
    }
    if status.is_none() {
        HUNG.fetch_add(1, Relaxed);
        let _ = child.kill();
        let _ = child.wait();
    }
    Ok(Ran { out, status, took_all })
}

/// Reads to the end of the output, or to more than a program may print; whether that came in time.
fn read_until(output: &mut (impl Read + AsRawFd), out: &mut Vec<u8>, until: Instant) -> bool {
    let mut buffer = [0; OUTPUT];
    while out.len() <= OUTPUT {
        let left = until.saturating_duration_since(Instant::now()).as_millis() as i32;
        let mut what = PollFd { fd: output.as_raw_fd(), events: POLL_IN, revents: 0 };
        // SAFETY: one descriptor, which is open.
        if unsafe { poll(&mut what, 1, left) } == 0 {
            return false;
        }
        match output.read(&mut buffer) {
            Ok(0) => return true,
            Ok(count) => out.extend(&buffer[..count]),
            Err(e) if e.kind() == std::io::ErrorKind::Interrupted => {}
            Err(_) => return true,
        }
    }
    true
}

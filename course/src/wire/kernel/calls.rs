//! The calls of the C library that std doesn't offer: a network namespace, packet sockets with the kernel's receive times, and
//! the clock that these are read from. Numbers and layouts are those of 64-bit Linux (x86-64, AArch64, RISC-V).

use crate::wire::scale::Nanos;
use std::ffi::{c_char, c_int, c_long, c_short, c_uint, c_ulong, c_void, CString};
use std::io::{Error, ErrorKind, Result};
use std::os::fd::{AsRawFd, FromRawFd, OwnedFd};
use std::ptr::null_mut;

const CLONE_NEWUSER: c_int = 0x1000_0000;
const CLONE_NEWNET: c_int = 0x4000_0000;
const PR_SET_TIMERSLACK: c_int = 29;
const CLOCK_REALTIME: c_int = 0;
const CLOCK_MONOTONIC: c_int = 1;
const AF_PACKET: c_int = 17;
const SOCK_RAW: c_int = 3;
const SOCK_NONBLOCK: c_int = 0o4000;
const SOCK_CLOEXEC: c_int = 0o2_000_000;
const SOL_SOCKET: c_int = 1;
const SO_PRIORITY: c_int = 12;
const SO_TIMESTAMPNS: c_int = 35;
const SO_SNDBUF: c_int = 7;
const SO_SNDBUFFORCE: c_int = 32;
const SO_RCVBUF: c_int = 8;
const SO_RCVBUFFORCE: c_int = 33;
const POLLIN: c_short = 1;
/// What a call says where a queue has no room (ENOBUFS).
pub const NO_ROOM: c_int = 105;

#[repr(C)]
#[derive(Clone, Copy, Default)]
struct Timespec {
    seconds: i64,
    nanos: c_long,
}

#[repr(C)]
#[derive(Default)]
struct LinkAddress {
    family: u16,
    /// In the network's order.
    protocol: u16,
    interface: c_int,
    hardware: u16,
    packet: u8,
    length: u8,
    address: [u8; 8],
}

#[repr(C)]
struct Part {
    start: *mut c_void,
    length: usize,
}

#[repr(C)]
struct Message {
    name: *mut c_void,
    name_length: c_uint,
    parts: *mut Part,
    part_count: usize,
    control: *mut c_void,
    control_length: usize,
    flags: c_int,
}

/// What the kernel says beside a frame, here its receive time; long enough for nothing else.
#[repr(C)]
#[derive(Default)]
struct Control {
    length: usize,
    level: c_int,
    kind: c_int,
    time: Timespec,
}

#[repr(C)]
struct Polled {
    file: c_int,
    events: c_short,
    found: c_short,
}

extern "C" {
    fn unshare(flags: c_int) -> c_int;
    fn prctl(option: c_int, value: c_ulong) -> c_int;
    fn geteuid() -> c_uint;
    fn getegid() -> c_uint;
    fn clock_gettime(clock: c_int, time: *mut Timespec) -> c_int;
    fn if_nametoindex(name: *const c_char) -> c_uint;
    fn socket(family: c_int, kind: c_int, protocol: c_int) -> c_int;
    fn bind(file: c_int, address: *const LinkAddress, length: c_uint) -> c_int;
    fn setsockopt(
        file: c_int,
        level: c_int,
        name: c_int,
        value: *const c_int,
        length: c_uint,
    ) -> c_int;
    fn send(file: c_int, bytes: *const u8, length: usize, flags: c_int) -> isize;
    fn recvmsg(file: c_int, message: *mut Message, flags: c_int) -> isize;
    fn ppoll(
        files: *mut Polled,
        count: c_ulong,
        wait: *const Timespec,
        mask: *const c_void,
    ) -> c_int;
}

fn done(result: c_int) -> Result<c_int> {
    match result {
        -1 => Err(Error::last_os_error()),
        fine => Ok(fine),
    }
}

/// The user and group that the process acts for.
pub fn owner() -> (u32, u32) {
    // SAFETY: neither takes anything.
    unsafe { (geteuid(), getegid()) }
}

/// Leaves the system's network for an empty one, and with `user` the system's users too, which needs no rights.
pub fn leave_network(user: bool) -> Result<()> {
    let flags = if user { CLONE_NEWUSER } else { 0 };
    // SAFETY: takes numbers alone.
    done(unsafe { unshare(flags | CLONE_NEWNET) }).map(|_| ())
}

/// Lets waits end when they are asked to, not up to 50 µs later.
pub fn wake_promptly() {
    // A wait that ends later only lets a source send later.
    // SAFETY: takes numbers alone.
    let _ = unsafe { prctl(PR_SET_TIMERSLACK, 1) };
}

fn clock(which: c_int) -> Nanos {
    let mut time = Timespec::default();
    // SAFETY: writes one Timespec. Both clocks are always there.
    unsafe { clock_gettime(which, &mut time) };
    nanos(time)
}

fn nanos(time: Timespec) -> Nanos {
    time.seconds as Nanos * 1_000_000_000 + time.nanos as Nanos
}

/// The clock of the kernel's receive times.
pub fn now() -> Nanos {
    clock(CLOCK_REALTIME)
}

/// A clock that nobody sets.
pub fn steady() -> Nanos {
    clock(CLOCK_MONOTONIC)
}

/// The number of an interface.
pub fn interface(name: &str) -> Result<i32> {
    let text = CString::new(name).map_err(|_| Error::from(ErrorKind::InvalidInput))?;
    // SAFETY: the text ends in NUL.
    match unsafe { if_nametoindex(text.as_ptr()) } {
        0 => Err(Error::last_os_error()),
        number => Ok(number as i32),
    }
}

/// What is read of a frame.
pub const START: usize = 18;

/// A packet socket on one interface.
pub struct Socket(OwnedFd);

impl Socket {
    /// With protocol 0 it receives nothing.
    fn on(interface: i32, protocol: u16) -> Result<Socket> {
        let kind = SOCK_RAW | SOCK_NONBLOCK | SOCK_CLOEXEC;
        // SAFETY: takes numbers alone; the file is nobody else's.
        let socket = unsafe {
            let file = done(socket(AF_PACKET, kind, 0))?;
            Socket(OwnedFd::from_raw_fd(file))
        };
        let address = LinkAddress {
            family: AF_PACKET as u16,
            protocol: protocol.to_be(),
            interface,
            ..LinkAddress::default()
        };
        let length = size_of::<LinkAddress>() as c_uint;
        // SAFETY: reads one LinkAddress.
        done(unsafe { bind(socket.0.as_raw_fd(), &address, length) })?;
        Ok(socket)
    }

    /// One that sends with this priority.
    pub fn sending(interface: i32, priority: i32, room: i32) -> Result<Socket> {
        let socket = Socket::on(interface, 0)?;
        socket.set(SO_PRIORITY, priority)?;
        socket
            .set(SO_SNDBUFFORCE, room)
            .or_else(|_| socket.set(SO_SNDBUF, room))?;
        Ok(socket)
    }

    /// One that receives every frame, with the time at which it came.
    pub fn receiving(interface: i32, room: i32) -> Result<Socket> {
        const EVERY_PROTOCOL: u16 = 3;
        let socket = Socket::on(interface, EVERY_PROTOCOL)?;
        socket.set(SO_TIMESTAMPNS, 1)?;
        socket
            .set(SO_RCVBUFFORCE, room)
            .or_else(|_| socket.set(SO_RCVBUF, room))?;
        Ok(socket)
    }

    fn set(&self, option: c_int, value: c_int) -> Result<()> {
        let (file, length) = (self.0.as_raw_fd(), size_of::<c_int>() as c_uint);
        // SAFETY: reads one c_int.
        done(unsafe { setsockopt(file, SOL_SOCKET, option, &value, length) }).map(|_| ())
    }

    pub fn send(&self, frame: &[u8]) -> Result<()> {
        // SAFETY: reads the frame's bytes.
        let sent = unsafe { send(self.0.as_raw_fd(), frame.as_ptr(), frame.len(), 0) };
        match sent {
            -1 => Err(Error::last_os_error()),
            _ => Ok(()),
        }
    }

    /// The start of the next frame and its receive time; nothing where none waits.
    pub fn receive(&self) -> Result<Option<([u8; START], Nanos)>> {
        let mut start = [0; START];
        let mut part = Part {
            start: start.as_mut_ptr().cast(),
            length: START,
        };
        let mut control = Control::default();
        let mut message = Message {
            name: null_mut(),
            name_length: 0,
            parts: &mut part,
            part_count: 1,
            control: (&raw mut control).cast(),
            control_length: size_of::<Control>(),
            flags: 0,
        };
        // SAFETY: the message names areas of these lengths that outlive the call.
        let length = unsafe { recvmsg(self.0.as_raw_fd(), &mut message, 0) };
        if length == -1 {
            let error = Error::last_os_error();
            return match error.kind() {
                ErrorKind::WouldBlock | ErrorKind::Interrupted => Ok(None),
                _ => Err(error),
            };
        }
        match (control.level, control.kind) {
            (SOL_SOCKET, SO_TIMESTAMPNS) => Ok(Some((start, nanos(control.time)))),
            _ => Err(Error::other("a frame came without its receive time")),
        }
    }
}

/// Waits until one of the sockets has a frame, at most so long: those that have one.
pub fn wait(sockets: &[Socket], most: Nanos) -> Result<Vec<&Socket>> {
    let polled = |socket: &Socket| Polled {
        file: socket.0.as_raw_fd(),
        events: POLLIN,
        found: 0,
    };
    let mut files: Vec<Polled> = sockets.iter().map(polled).collect();
    let time = Timespec {
        seconds: (most / 1_000_000_000) as i64,
        nanos: (most % 1_000_000_000) as c_long,
    };
    let count = files.len() as c_ulong;
    // SAFETY: so many Polled stand there; one Timespec is read.
    match done(unsafe { ppoll(files.as_mut_ptr(), count, &time, null_mut()) }) {
        Err(error) if error.kind() != ErrorKind::Interrupted => Err(error),
        _ => {
            let pairs = sockets.iter().zip(&files);
            Ok(pairs
                .filter(|(_, file)| file.found != 0)
                .map(|(socket, _)| socket)
                .collect())
        }
    }
}

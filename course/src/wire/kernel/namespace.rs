//! A network of its own: a namespace that nothing leads into or out of and that goes with the process, in it a veth pair for
//! each link, over the sending end the kernel's token bucket filter at the link's speed, and in that the three bands of
//! pfifo_fast.

use super::calls;
use crate::folder::why;
use crate::wire::roads::Road;
use crate::wire::scale::Scale;
use std::io::{Error, Write};
use std::path::{Path, PathBuf};
use std::process::{Command, Stdio};

/// Preamble, gap and check sum: what a frame has on the wire and not in the kernel.
pub const OVERHEAD: u64 = 24;

/// More than any frame.
const MTU: u64 = 2000;

/// The end that sends, and the end that receives.
pub fn ends(road: &Road) -> [String; 2] {
    ["a", "b"].map(|end| format!("w{}{end}", road.link))
}

/// Both programs that the links are made by.
pub struct Programs {
    ip: PathBuf,
    tc: PathBuf,
}

/// Where such programs stand, though a user's PATH may not name it.
const BESIDE_PATH: [&str; 2] = ["/usr/sbin", "/sbin"];

impl Programs {
    /// Where PATH, and what is beside it, has them; else which one is missing.
    pub fn find() -> Result<Programs, String> {
        let path = std::env::var_os("PATH").unwrap_or_default();
        let named = std::env::split_paths(&path);
        let folders: Vec<PathBuf> = named.chain(BESIDE_PATH.map(PathBuf::from)).collect();
        Programs::find_in(&folders)
    }

    pub fn find_in(folders: &[PathBuf]) -> Result<Programs, String> {
        let find = |name: &str| {
            let mut places = folders.iter().map(|folder| folder.join(name));
            places.find(|place| place.is_file()).ok_or_else(|| {
                format!("the program `{name}` is missing; Debian and Ubuntu have it in the package iproute2")
            })
        };
        Ok(Programs {
            ip: find("ip")?,
            tc: find("tc")?,
        })
    }
}

/// What to do about a right that is missing; to be asked for before the namespace is entered, where everybody is root.
pub fn way_out() -> &'static str {
    match calls::owner() {
        (0, _) => "",
        _ => "; root may be allowed to",
    }
}

/// Enters an empty network: by the rights of root or, where the system allows, of any user.
pub fn enter() -> Result<(), String> {
    let (user, group) = calls::owner();
    if user == 0 && calls::leave_network(false).is_ok() {
        return Ok(());
    }
    let refused = |what: &str, error: &Error| {
        let why = why(error);
        format!("the system doesn't allow a network namespace here ({what}: {why})")
    };
    calls::leave_network(true).map_err(|error| refused("unshare", &error))?;
    let maps = [
        ("/proc/self/setgroups", "deny".to_string()),
        ("/proc/self/uid_map", format!("0 {user} 1")),
        ("/proc/self/gid_map", format!("0 {group} 1")),
    ];
    for (path, text) in maps {
        std::fs::write(path, text).map_err(|error| refused(path, &error))?;
    }
    Ok(())
}

impl Programs {
    /// Makes the links, their bands with room for so many frames each.
    pub fn build(
        &self,
        roads: &[Road],
        scale: Scale,
        room: impl Fn(&Road) -> u64,
    ) -> Result<(), String> {
        let pairs: String = roads.iter().map(|road| pair(road, room(road))).collect();
        let queues: Option<String> = roads.iter().map(|road| queues(road, scale)).collect();
        batch(&self.ip, &pairs)?;
        let queues = queues.ok_or("a link's speed is no whole number of bytes per second")?;
        batch(&self.tc, &queues)
    }
}

/// A veth pair on which the system itself sends nothing. pfifo_fast gives each band room for `txqueuelen` frames.
fn pair(road: &Road, room: u64) -> String {
    let [sends, receives] = ends(road);
    let quiet = "arp off multicast off addrgenmode none";
    format!(
        "link add name {sends} mtu {MTU} txqueuelen {room} type veth peer name {receives} mtu {MTU}\n\
         link set dev {sends} {quiet}\n\
         link set dev {receives} {quiet}\n\
         link set dev {sends} up\n\
         link set dev {receives} up\n"
    )
}

/// `burst` is one largest frame: with more the kernel would let go of several at once, with less of none. `limit` is asked for,
/// and goes with the queue that pfifo_fast takes the place of.
fn queues(road: &Road, scale: Scale) -> Option<String> {
    let [sends, _] = ends(road);
    let (bits, largest) = (8 * scale.bytes_per_second(road.speed)?, road.largest);
    Some(format!(
        "qdisc add dev {sends} root handle 1: stab overhead {OVERHEAD} tbf rate {bits}bit burst {largest} limit {largest}\n\
         qdisc add dev {sends} parent 1:1 handle 2: pfifo_fast\n"
    ))
}

/// Gives a program its lines; what it says where it fails.
fn batch(program: &Path, lines: &str) -> Result<(), String> {
    let name = program.display();
    let failed = |error: Error| format!("{name} can't be run: {}", why(&error));
    let mut child = Command::new(program)
        .args(["-batch", "-"])
        .stdin(Stdio::piped())
        .stdout(Stdio::null())
        .stderr(Stdio::piped())
        .spawn()
        .map_err(failed)?;
    // A program that ends early says why, below.
    let input = child.stdin.take();
    let _ = input.map(|mut input| input.write_all(lines.as_bytes()));
    let output = child.wait_with_output().map_err(failed)?;
    match output.status.success() {
        true => Ok(()),
        false => Err(format!(
            "{name} can't set up the links: {}",
            String::from_utf8_lossy(&output.stderr)
                .trim()
                .trim_end_matches('.')
        )),
    }
}

//! Where there is no Linux kernel: nothing can be sent.

use super::roads::Road;
use super::run::{Dequeued, Wires};
use super::scale::{Nanos, Scale};
use crate::traffic::hall::Hall;

pub enum Kernel {}

impl Kernel {
    pub fn build(_: &Hall, _: &[Road], _: Scale, _beyond: u64) -> Result<Kernel, String> {
        let what =
            "this needs Linux on x86-64, AArch64 or RISC-V: frames go through its kernel's queues";
        Err(what.to_string())
    }
}

impl Wires for Kernel {
    fn now(&self) -> Nanos {
        match *self {}
    }

    fn send(&mut self, _queue: usize, _name: u32, _bytes: u64) -> Result<(Nanos, Nanos), String> {
        match *self {}
    }

    fn receive(&mut self, _until: Nanos) -> Result<Vec<Dequeued>, String> {
        match *self {}
    }
}

//! This kernel, through the library for C. Unproved.

use crate::calls::Call;
use crate::makers::Maker;

use speck::{FrameKind, Machine, Port, Rights};

const RIGHTS: [Rights; 4] = [Rights::None, Rights::Copy, Rights::Use, Rights::Both];

impl Maker for Port {
    fn make(&mut self, call: Call) -> bool {
        let reply = match call {
            Call::Look { a } => self.look(a),
            Call::Copy { a, t, b, rights } => self.copy(a, t, b, RIGHTS[usize::from(rights & 3)]),
            Call::Remove { t, b } => self.remove(t, b),
            Call::Map { p, v, r, f, w } => self.map(p, v, r, f, w),
            Call::Unmap { p, v } => self.unmap(p, v),
            Call::Flush => self.flush(),
            Call::Tick { n } => self.tick(n),
            Call::Call { g } => self.call(g),
            Call::Ret => self.ret(),
            Call::Switch { h, q } => self.switch(h, q),
            Call::Transfer { a, b, m } => self.transfer(a, b, m),
            Call::Touch { v } => self.touch(v),
            Call::Delegate { a, b, m } => self.delegate(a, b, m),
            Call::Test { a, b } => self.test(a, b),
        };
        reply.is_ok()
    }
}

fn made(reply: Result<speck::Value, speck::Refused>) {
    reply.expect("carried out");
}

/// The machine's ports, core 0's first, once the row's first calls were made. The machine lives as long as they do.
pub fn ports(row: &str, cores: u8) -> Vec<Port> {
    let mut machine = Machine::boot(cores, crate::rows::FRAMES, crate::rows::BUDGET).expect("a machine");
    let mut ports: Vec<Port> = (0..cores).map(|_| machine.deal().expect("a port")).collect();
    std::mem::forget(machine);
    let port = &mut ports[0];
    match row {
        "map" | "touch" => {
            made(port.retype(0, 8, FrameKind::Kernel));
            made(port.make_pleaf(0, 8, 1, 21));
            made(port.grow(2, 0, 21));
            made(port.retype(0, 9, FrameKind::User));
            if row == "touch" {
                made(port.map(2, 5, 0, 9, 3));
            }
        }
        "call" => {
            made(port.retype(0, 10, FrameKind::Kernel));
            made(port.make_comp(1, 2, 5, 0, 10, 1, 22));
            made(port.gate(22, 1, 23));
        }
        "switch" => {
            made(port.retype(0, 8, FrameKind::Kernel));
            made(port.make_thread(3, 0, 8, 1, 20));
        }
        _ => {}
    }
    ports
}

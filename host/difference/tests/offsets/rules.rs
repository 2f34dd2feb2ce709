//! The rules of the tunnel headers, one for each byte that has one, and the first byte
//! that breaks its own.

use crate::look::look;

/// What a byte must be.
pub struct Rule {
    /// Its place, counted from the first byte behind the IPv4 header, or of the STT
    /// frame.
    at: usize,
    keeps: fn(u8) -> bool,
    /// The answer where it is not so.
    code: u8,
}

/// Behind the 8 bytes of the UDP header come the flags.
pub const VXLAN: [Rule; 1] = [Rule {
    at: 8,
    keeps: |byte| byte & 0x08 != 0,
    code: 25,
}];

pub const GRE: [Rule; 4] = [
    Rule {
        at: 0,
        keeps: |byte| matches!(byte, 0x20..=0x23),
        code: 26,
    },
    Rule {
        at: 1,
        keeps: |byte| byte % 8 == 0,
        code: 26,
    },
    Rule {
        at: 2,
        keeps: |byte| byte == 0x65,
        code: 27,
    },
    Rule {
        at: 3,
        keeps: |byte| byte == 0x58,
        code: 27,
    },
];

/// The second holds for a frame with a transport header alone.
pub const STT: [Rule; 2] = [
    Rule {
        at: 0,
        keeps: |byte| byte == 0,
        code: 28,
    },
    Rule {
        at: 1,
        keeps: |byte| byte % 4 != 3,
        code: 29,
    },
];

/// The code and the offset of an answer.
#[derive(Clone, Copy, Debug, PartialEq, Eq)]
pub struct Verdict {
    pub code: u8,
    pub offset: usize,
}

impl Verdict {
    /// A code without an offset.
    pub fn of(code: u8) -> Verdict {
        Verdict { code, offset: 0 }
    }
}

/// The first byte that breaks its rule. Where none does, this code is the answer.
fn first(rules: &[Rule], bytes: &[u8], header: usize, otherwise: u8) -> Verdict {
    for rule in rules {
        let offset = header + rule.at;
        if !(rule.keeps)(bytes[offset]) {
            let code = rule.code;
            return Verdict { code, offset };
        }
    }
    Verdict::of(otherwise)
}

/// The answer to a VXLAN or NVGRE packet that nothing is wrong with before its tunnel
/// header, and that has this code if nothing is wrong with that either.
pub fn of_packet(packet: &[u8], otherwise: u8) -> Verdict {
    let header = 4 * usize::from(packet[0] % 16);
    match packet[9] {
        17 => first(&VXLAN, packet, header, otherwise),
        47 => first(&GRE, packet, header, otherwise),
        other => panic!("protocol {other} has no tunnel header in the packet"),
    }
}

/// The answer to the segment that completes an STT frame.
pub fn of_frame(frame: &[u8], otherwise: u8) -> Verdict {
    let has_transport = look(&frame[18..]).is_some();
    let rules = if has_transport { &STT[..] } else { &STT[..1] };
    first(rules, frame, 0, otherwise)
}

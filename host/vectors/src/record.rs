//! The form of `runs.bin`: op (1 byte), length (2 bytes), payload. Numbers are
//! big-endian.

use crate::driver::{Driver, Line, MAX_MEMORY, MAX_OUTPUT};

/// Longest payload of a record.
pub const MAX_PAYLOAD: usize = 2000;

/// One call. Settings and numbers of peers, kinds, tenants and bindings are as
/// wide as the calls take them; `runs.bin` has only those of 16 bits (a kind: 8).
#[derive(Clone, Debug, PartialEq, Eq)]
pub enum Record {
    Start {
        own: u32,
        port: u32,
        mtu: u32,
    },
    Peer {
        address: u32,
    },
    Binding {
        peer: u32,
        kind: u32,
        id: u64,
        tenant: u32,
    },
    Lend {
        length: u32,
        seed: u32,
    },
    Receive {
        packet: Vec<u8>,
    },
    Tick,
    View {
        in_memory: bool,
        start: u64,
        length: u64,
    },
    Wrap {
        binding: u32,
        segment: u32,
        identifier: u32,
        output_length: u16,
        frame: Vec<u8>,
    },
    Observe {
        tenant: u16,
        peer: u16,
        address: u64,
    },
    Save {
        output_length: u16,
    },
    Load {
        image: Vec<u8>,
    },
}

impl Record {
    fn op(&self) -> u8 {
        match self {
            Record::Start { .. } => 1,
            Record::Peer { .. } => 2,
            Record::Binding { .. } => 3,
            Record::Lend { .. } => 4,
            Record::Receive { .. } => 5,
            Record::Tick => 6,
            Record::View { .. } => 7,
            Record::Wrap { .. } => 8,
            Record::Observe { .. } => 9,
            Record::Save { .. } => 10,
            Record::Load { .. } => 11,
        }
    }

    fn payload(&self) -> Vec<u8> {
        match self {
            Record::Start { own, port, mtu } => {
                join(&[&own.to_be_bytes(), &narrow(*port), &narrow(*mtu)])
            }
            Record::Peer { address } => join(&[&address.to_be_bytes()]),
            Record::Binding {
                peer,
                kind,
                id,
                tenant,
            } => join(&[
                &narrow(*peer),
                &[u8::try_from(*kind).expect("a kind of 8 bits")],
                &id.to_be_bytes(),
                &narrow(*tenant),
            ]),
            Record::Lend { length, seed } => join(&[&length.to_be_bytes(), &seed.to_be_bytes()]),
            Record::Receive { packet } => packet.clone(),
            Record::Tick => Vec::new(),
            Record::View {
                in_memory,
                start,
                length,
            } => join(&[
                &[u8::from(*in_memory)],
                &start.to_be_bytes(),
                &length.to_be_bytes(),
            ]),
            Record::Wrap { .. } => self.wrap_payload(),
            Record::Observe {
                tenant,
                peer,
                address,
            } => join(&[
                &tenant.to_be_bytes(),
                &peer.to_be_bytes(),
                &address.to_be_bytes(),
            ]),
            Record::Save { output_length } => join(&[&output_length.to_be_bytes()]),
            Record::Load { image } => image.clone(),
        }
    }

    fn wrap_payload(&self) -> Vec<u8> {
        let Record::Wrap {
            binding,
            segment,
            identifier,
            output_length,
            frame,
        } = self
        else {
            return Vec::new();
        };
        join(&[
            &narrow(*binding),
            &segment.to_be_bytes(),
            &identifier.to_be_bytes(),
            &output_length.to_be_bytes(),
            frame,
        ])
    }

    /// Appends this record to `runs`.
    pub fn encode(&self, runs: &mut Vec<u8>) {
        let payload = self.payload();
        assert!(payload.len() <= MAX_PAYLOAD, "a record is too long");
        runs.push(self.op());
        runs.extend((payload.len() as u16).to_be_bytes());
        runs.extend(payload);
    }

    /// Makes the call on the reference.
    pub fn call(&self, driver: &mut Driver) -> Line {
        match self {
            Record::Start { own, port, mtu } => driver.start(*own, *port, *mtu),
            Record::Peer { address } => driver.peer(*address),
            Record::Binding {
                peer,
                kind,
                id,
                tenant,
            } => driver.binding(*peer, *kind, *id, *tenant),
            Record::Lend { length, seed } => driver.lend(*length as usize, *seed),
            Record::Receive { packet } => driver.receive(packet),
            Record::Tick => driver.tick(),
            Record::View {
                in_memory,
                start,
                length,
            } => driver.view(*in_memory, *start, *length),
            Record::Wrap {
                binding,
                segment,
                identifier,
                output_length,
                frame,
            } => driver.wrap(
                *binding,
                *segment,
                *identifier,
                usize::from(*output_length),
                frame,
            ),
            Record::Observe {
                tenant,
                peer,
                address,
            } => driver.observe(*tenant, *peer, *address).1,
            Record::Save { output_length } => driver.save(usize::from(*output_length)),
            Record::Load { image } => driver.load(image),
        }
    }
}

/// A number that the file has two bytes for.
fn narrow(number: u32) -> [u8; 2] {
    let number = u16::try_from(number).expect("a number of 16 bits");
    number.to_be_bytes()
}

fn join(fields: &[&[u8]]) -> Vec<u8> {
    fields.concat()
}

/// Takes fields off the front of a payload.
struct Fields<'a> {
    rest: &'a [u8],
}

impl<'a> Fields<'a> {
    fn take(&mut self, count: usize) -> Result<&'a [u8], String> {
        if self.rest.len() < count {
            return Err("a record ends too early".to_string());
        }
        let (field, rest) = self.rest.split_at(count);
        self.rest = rest;
        Ok(field)
    }

    fn number(&mut self, width: usize) -> Result<u64, String> {
        let field = self.take(width)?;
        Ok(field
            .iter()
            .fold(0, |value, &byte| value << 8 | u64::from(byte)))
    }

    fn remaining(&mut self) -> Vec<u8> {
        std::mem::take(&mut self.rest).to_vec()
    }
}

/// All records of `runs`, or what is wrong with it.
pub fn decode(runs: &[u8]) -> Result<Vec<Record>, String> {
    let mut input = Fields { rest: runs };
    let mut records = Vec::new();
    while !input.rest.is_empty() {
        let op = input.number(1)?;
        let length = input.number(2)? as usize;
        if length > MAX_PAYLOAD {
            return Err(format!("a payload of {length} bytes"));
        }
        let mut payload = Fields {
            rest: input.take(length)?,
        };
        records.push(decode_payload(op, &mut payload)?);
        if !payload.rest.is_empty() {
            return Err(format!("bytes left over in a record of op {op}"));
        }
    }
    Ok(records)
}

fn decode_payload(op: u64, fields: &mut Fields) -> Result<Record, String> {
    match op {
        1 => Ok(Record::Start {
            own: fields.number(4)? as u32,
            port: fields.number(2)? as u32,
            mtu: fields.number(2)? as u32,
        }),
        2 => Ok(Record::Peer {
            address: fields.number(4)? as u32,
        }),
        3 => Ok(Record::Binding {
            peer: fields.number(2)? as u32,
            kind: fields.number(1)? as u32,
            id: fields.number(8)?,
            tenant: fields.number(2)? as u32,
        }),
        4 => decode_lend(fields),
        5 => Ok(Record::Receive {
            packet: fields.remaining(),
        }),
        6 => Ok(Record::Tick),
        7 => decode_view(fields),
        8 => decode_wrap(fields),
        9 => Ok(Record::Observe {
            tenant: fields.number(2)? as u16,
            peer: fields.number(2)? as u16,
            address: fields.number(8)?,
        }),
        10 => Ok(Record::Save {
            output_length: decode_output_length(fields)?,
        }),
        11 => Ok(Record::Load {
            image: fields.remaining(),
        }),
        _ => Err(format!("no op {op}")),
    }
}

fn decode_lend(fields: &mut Fields) -> Result<Record, String> {
    let length = fields.number(4)? as u32;
    if length as usize > MAX_MEMORY {
        return Err(format!("a memory of {length} bytes"));
    }
    let seed = fields.number(4)? as u32;
    Ok(Record::Lend { length, seed })
}

fn decode_view(fields: &mut Fields) -> Result<Record, String> {
    let in_memory = match fields.number(1)? {
        0 => false,
        1 => true,
        other => return Err(format!("a view of slice {other}")),
    };
    Ok(Record::View {
        in_memory,
        start: fields.number(8)?,
        length: fields.number(8)?,
    })
}

fn decode_wrap(fields: &mut Fields) -> Result<Record, String> {
    let binding = fields.number(2)? as u32;
    let segment = fields.number(4)? as u32;
    let identifier = fields.number(4)? as u32;
    let output_length = decode_output_length(fields)?;
    Ok(Record::Wrap {
        binding,
        segment,
        identifier,
        output_length,
        frame: fields.remaining(),
    })
}

fn decode_output_length(fields: &mut Fields) -> Result<u16, String> {
    let length = fields.number(2)? as u16;
    if usize::from(length) > MAX_OUTPUT {
        return Err(format!("an output of {length} bytes"));
    }
    Ok(length)
}

/// What the reference answers to `runs`: the contents of `answers.txt`.
pub fn replay(runs: &[u8]) -> Result<String, String> {
    let mut driver = Driver::new();
    let mut answers = String::new();
    for record in decode(runs)? {
        answers.push_str(&record.call(&mut driver).text);
        answers.push('\n');
    }
    Ok(answers)
}

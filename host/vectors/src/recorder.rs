//! Makes calls on the reference and writes down both sides. The reference is
//! called with the generator's own values, not with what the file says, so that
//! a replay of the file checks the file's form too.

use crate::driver::{flat, Driver, Line, MAX_MEMORY, MAX_OUTPUT};
use crate::record::Record;
use niulassenc_reference::Observed;

/// How often each code 0..=29 was answered.
pub type Histogram = [u64; 30];

pub struct Recorder {
    pub driver: Driver,
    pub runs: Vec<u8>,
    pub answers: String,
    pub histogram: Histogram,
    /// How often a detector answered new, known, duplicate, full.
    pub observed: [u64; 4],
    pub records: usize,
    /// The records themselves, for a caller that wants no files.
    kept: Option<Vec<Record>>,
    /// Whether calls that write to an output, wraps and saves, are written down.
    /// They are made in any case: directed cases receive what a wrap wrote.
    writes: bool,
    /// Name of the directed case, for messages.
    pub case: &'static str,
}

impl Default for Recorder {
    fn default() -> Recorder {
        Recorder::new()
    }
}

impl Recorder {
    pub fn new() -> Recorder {
        Recorder {
            driver: Driver::new(),
            runs: Vec::new(),
            answers: String::new(),
            histogram: [0; 30],
            observed: [0; 4],
            records: 0,
            kept: None,
            writes: true,
            case: "",
        }
    }

    /// A recorder that leaves every wrap and every save out of both files.
    pub fn receive_only() -> Recorder {
        Recorder {
            writes: false,
            ..Recorder::new()
        }
    }

    /// A recorder that keeps the records and writes neither file.
    pub fn keeping() -> Recorder {
        Recorder {
            driver: Driver::untold(),
            kept: Some(Vec::new()),
            ..Recorder::new()
        }
    }

    /// What a keeping recorder kept.
    pub fn into_records(self) -> Vec<Record> {
        self.kept.unwrap_or_default()
    }

    fn note(&mut self, record: Record, line: Line) -> Option<u8> {
        if !self.writes && matches!(record, Record::Wrap { .. } | Record::Save { .. }) {
            return line.code;
        }
        if let Some(kept) = &mut self.kept {
            kept.push(record);
        } else {
            record.encode(&mut self.runs);
            self.answers.push_str(&line.text);
            self.answers.push('\n');
        }
        self.records += 1;
        if let Some(code) = line.code {
            self.histogram[usize::from(code)] += 1;
        }
        line.code
    }

    /// A directed case says what it expects; the paper decides, so a reference
    /// that answers otherwise is wrong and nothing is written.
    fn expect(&self, expected: u8, got: Option<u8>) {
        let at = self.records;
        assert_eq!(got, Some(expected), "case {}, record {at}", self.case);
    }

    pub fn try_start(&mut self, own: u32, port: u16, mtu: u16) -> Option<u8> {
        let (port, mtu) = (port.into(), mtu.into());
        let line = self.driver.start(own, port, mtu);
        self.note(Record::Start { own, port, mtu }, line)
    }

    pub fn start(&mut self, expected: u8, own: u32, port: u16, mtu: u16) {
        let got = self.try_start(own, port, mtu);
        self.expect(expected, got);
    }

    pub fn try_peer(&mut self, address: u32) -> Option<u8> {
        let line = self.driver.peer(address);
        self.note(Record::Peer { address }, line)
    }

    pub fn peer(&mut self, expected: u8, address: u32) {
        let got = self.try_peer(address);
        self.expect(expected, got);
    }

    pub fn try_binding(&mut self, peer: u16, kind: u8, id: u64, tenant: u16) -> Option<u8> {
        let (peer, kind, tenant) = (peer.into(), kind.into(), tenant.into());
        let line = self.driver.binding(peer, kind, id, tenant);
        let record = Record::Binding {
            peer,
            kind,
            id,
            tenant,
        };
        self.note(record, line)
    }

    pub fn binding(&mut self, expected: u8, peer: u16, kind: u8, id: u64, tenant: u16) {
        let got = self.try_binding(peer, kind, id, tenant);
        self.expect(expected, got);
    }

    pub fn lend(&mut self, length: usize, seed: u32) {
        assert!(length <= MAX_MEMORY);
        let line = self.driver.lend(length, seed);
        let length = length as u32;
        self.note(Record::Lend { length, seed }, line);
    }

    /// A frame that is delivered is observed right away.
    pub fn try_receive(&mut self, packet: &[u8]) -> Option<u8> {
        let line = self.driver.receive(packet);
        let packet = packet.to_vec();
        let code = self.note(Record::Receive { packet }, line);
        if let Some((tenant, peer, address)) = self.driver.delivered() {
            self.try_observe(tenant, peer, address);
        }
        code
    }

    /// A receive whose answer names no offset: 0 stands there.
    pub fn receive(&mut self, expected: u8, packet: &[u8]) {
        self.receive_at(expected, 0, packet);
    }

    /// A receive whose answer names the first offending byte.
    pub fn receive_at(&mut self, expected: u8, offset: usize, packet: &[u8]) {
        let got = self.try_receive(packet);
        self.expect(expected, got);
        let (at, named) = (self.records, self.driver.offset());
        assert_eq!(named, offset, "offset: case {}, record {at}", self.case);
    }

    pub fn tick(&mut self) {
        let line = self.driver.tick();
        self.note(Record::Tick, line);
    }

    pub fn ticks(&mut self, count: usize) {
        for _ in 0..count {
            self.tick();
        }
    }

    pub fn view(&mut self, in_memory: bool, start: u64, length: u64) {
        let line = self.driver.view(in_memory, start, length);
        let record = Record::View {
            in_memory,
            start,
            length,
        };
        self.note(record, line);
    }

    pub fn try_wrap(
        &mut self,
        binding: u16,
        segment: u32,
        identifier: u32,
        output_length: usize,
        frame: &[u8],
    ) -> Option<u8> {
        assert!(output_length <= MAX_OUTPUT);
        let binding = binding.into();
        let line = self
            .driver
            .wrap(binding, segment, identifier, output_length, frame);
        let record = Record::Wrap {
            binding,
            segment,
            identifier,
            output_length: output_length as u16,
            frame: frame.to_vec(),
        };
        self.note(record, line)
    }

    /// A wrap under identifier 7 with an expected code.
    pub fn wrap(&mut self, expected: u8, binding: u16, segment: u32, output: usize, frame: &[u8]) {
        let got = self.try_wrap(binding, segment, 7, output, frame);
        self.expect(expected, got);
    }

    pub fn try_observe(&mut self, tenant: u16, peer: u16, address: u64) -> Observed {
        let (observed, line) = self.driver.observe(tenant, peer, address);
        let record = Record::Observe {
            tenant,
            peer,
            address,
        };
        self.note(record, line);
        self.observed[usize::from(flat(observed).0)] += 1;
        observed
    }

    pub fn observe(&mut self, expected: Observed, tenant: u16, peer: u16, address: u64) {
        let got = self.try_observe(tenant, peer, address);
        let at = self.records;
        assert_eq!(got, expected, "case {}, record {at}", self.case);
    }

    pub fn try_save(&mut self, output_length: usize) -> Option<u8> {
        assert!(output_length <= MAX_OUTPUT);
        let line = self.driver.save(output_length);
        let output_length = output_length as u16;
        self.note(Record::Save { output_length }, line)
    }

    pub fn save(&mut self, expected: u8, output_length: usize) {
        let got = self.try_save(output_length);
        self.expect(expected, got);
    }

    pub fn try_load(&mut self, image: &[u8]) -> Option<u8> {
        let line = self.driver.load(image);
        let image = image.to_vec();
        self.note(Record::Load { image }, line)
    }

    pub fn load(&mut self, expected: u8, image: &[u8]) {
        let got = self.try_load(image);
        self.expect(expected, got);
    }

    /// Wraps every segment of a frame and gives the packets back.
    pub fn wrap_all(&mut self, binding: u16, identifier: u32, frame: &[u8]) -> Vec<Vec<u8>> {
        let mut packets = Vec::new();
        loop {
            let number = packets.len() as u32;
            let got = self.try_wrap(binding, number, identifier, 1600, frame);
            if got != Some(0) {
                return packets;
            }
            packets.push(self.driver.written().to_vec());
        }
    }
}

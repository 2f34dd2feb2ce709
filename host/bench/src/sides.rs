//! The two sides of the comparison, behind the same calls.

use niulassenc::numbers;
use niulassenc_reference as reference;
use std::hint::black_box;

/// An endpoint, whoever made it. Addresses and answers are numbers.
pub trait Side {
    const NAME: &'static str;

    /// The detector of the same maker.
    type Detector: Clone;

    fn start(own: u32, port: u16, mtu: u16) -> Self;
    fn add_peer(&mut self, address: u32);
    fn add_binding(&mut self, peer: u32, kind: u32, network: u64, tenant: u32);
    fn receive(&mut self, packet: &[u8], memory: &mut [u8]) -> u8;
    fn tick(&mut self) -> u8;
    fn wrap(&mut self, binding: u32, frame: &[u8], output: &mut [u8]) -> u8;
    fn save(&mut self, output: &mut [u8]) -> u8;
    /// The endpoint that it gives is not kept, but it is made.
    fn load(image: &[u8]) -> u8;

    fn detector() -> Self::Detector;
    fn observe(detector: &mut Self::Detector, tenant: u16, peer: u16, address: u64) -> u8;
}

/// The library, called as C would call it.
impl Side for numbers::Endpoint {
    const NAME: &'static str = "library";

    type Detector = numbers::Detector;

    fn start(own: u32, port: u16, mtu: u16) -> Self {
        let (endpoint, code) = numbers::Endpoint::start(own, port.into(), mtu.into());
        assert_eq!(code, 0);
        endpoint
    }

    fn add_peer(&mut self, address: u32) {
        assert_eq!(numbers::Endpoint::add_peer(self, address).code, 0);
    }

    fn add_binding(&mut self, peer: u32, kind: u32, network: u64, tenant: u32) {
        let added = numbers::Endpoint::add_binding(self, peer, kind, network, tenant);
        assert_eq!(added.code, 0);
    }

    #[inline(always)]
    fn receive(&mut self, packet: &[u8], memory: &mut [u8]) -> u8 {
        numbers::Endpoint::receive(self, packet, memory).code
    }

    #[inline(always)]
    fn tick(&mut self) -> u8 {
        numbers::Endpoint::tick(self)
    }

    #[inline(always)]
    fn wrap(&mut self, binding: u32, frame: &[u8], output: &mut [u8]) -> u8 {
        numbers::Endpoint::wrap(self, binding, frame, 0, 7, output).code
    }

    #[inline(always)]
    fn save(&mut self, output: &mut [u8]) -> u8 {
        numbers::Endpoint::save(self, output).code
    }

    #[inline(always)]
    fn load(image: &[u8]) -> u8 {
        black_box(&numbers::Endpoint::load(image)).1
    }

    fn detector() -> numbers::Detector {
        numbers::Detector::start()
    }

    #[inline(always)]
    fn observe(detector: &mut numbers::Detector, tenant: u16, peer: u16, address: u64) -> u8 {
        detector.observe(tenant, peer, address).answer
    }
}

impl Side for reference::Endpoint {
    const NAME: &'static str = "reference";

    type Detector = reference::Detector;

    fn start(own: u32, port: u16, mtu: u16) -> Self {
        let (endpoint, code) = reference::Endpoint::start(own, port.into(), mtu.into());
        assert_eq!(code, 0);
        endpoint
    }

    fn add_peer(&mut self, address: u32) {
        assert_eq!(reference::Endpoint::add_peer(self, address).code, 0);
    }

    fn add_binding(&mut self, peer: u32, kind: u32, network: u64, tenant: u32) {
        let added = reference::Endpoint::add_binding(self, peer, kind, network, tenant);
        assert_eq!(added.code, 0);
    }

    #[inline(always)]
    fn receive(&mut self, packet: &[u8], memory: &mut [u8]) -> u8 {
        reference::Endpoint::receive(self, packet, memory).code
    }

    #[inline(always)]
    fn tick(&mut self) -> u8 {
        reference::Endpoint::tick(self)
    }

    #[inline(always)]
    fn wrap(&mut self, binding: u32, frame: &[u8], output: &mut [u8]) -> u8 {
        reference::Endpoint::wrap(self, binding, frame, 0, 7, output).code
    }

    #[inline(always)]
    fn save(&mut self, output: &mut [u8]) -> u8 {
        reference::Endpoint::save(self, output).map_or_else(reference::Refusal::code, |_| 0)
    }

    #[inline(always)]
    fn load(image: &[u8]) -> u8 {
        let loaded = reference::Endpoint::load(image);
        let loaded = black_box(&loaded).as_ref();
        loaded.map_or_else(|refusal| refusal.code(), |_| 0)
    }

    fn detector() -> reference::Detector {
        reference::Detector::start()
    }

    #[inline(always)]
    fn observe(detector: &mut reference::Detector, tenant: u16, peer: u16, address: u64) -> u8 {
        vectors::driver::flat(detector.observe(tenant, peer, address)).0
    }
}

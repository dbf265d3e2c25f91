//! Lays out domain files byte by byte.

pub const NO_DEVICE: u8 = 0;
pub const END_DEVICE: u8 = 1;
pub const EDGE_EXPANDER: u8 = 2;
pub const FANOUT_EXPANDER: u8 = 3;

pub const DIRECT: u8 = 0;
pub const SUBTRACTIVE: u8 = 1;
pub const TABLE: u8 = 2;

#[derive(Clone, Copy, Debug)]
pub struct Phy {
    pub result: u8,
    pub identifier: u8,
    pub device_type: u8,
    pub attribute: u8,
    pub own: u64,
    pub attached: u64,
    pub attached_phy: u8,
    /// A long DISCOVER response.
    pub long: bool,
}

#[derive(Clone, Debug)]
pub struct Expander {
    pub address: u64,
    pub route_indexes: u16,
    pub configurable: bool,
    pub phys: Vec<Phy>,
    /// A long REPORT GENERAL response.
    pub long: bool,
}

impl Expander {
    pub fn new(address: u64, route_indexes: u16, configurable: bool) -> Expander {
        Expander {
            address,
            route_indexes,
            configurable,
            phys: Vec::new(),
            long: false,
        }
    }

    /// Appends a phy with its right identifier and own address.
    pub fn phy(mut self, attribute: u8, device_type: u8, attached: u64, attached_phy: u8) -> Self {
        self.phys.push(Phy {
            result: 0,
            identifier: self.phys.len() as u8,
            device_type,
            attribute,
            own: self.address,
            attached,
            attached_phy,
            long: false,
        });
        self
    }

    /// Appends a phy attached to an end device.
    pub fn drive(self, attribute: u8, address: u64) -> Self {
        self.phy(attribute, END_DEVICE, address, 0)
    }

    /// Appends a phy attached to another expander's phy.
    pub fn link(self, attribute: u8, address: u64, phy: u8) -> Self {
        self.phy(attribute, EDGE_EXPANDER, address, phy)
    }

    /// Appends a phy with nothing attached.
    pub fn empty(self, attribute: u8) -> Self {
        self.phy(attribute, NO_DEVICE, 0, 0)
    }

    /// Appends a vacant phy.
    pub fn vacant(mut self, result: u8) -> Self {
        self = self.empty(DIRECT);
        self.phys.last_mut().expect("just appended").result = result;
        self
    }

    /// All of its frames long.
    pub fn long(mut self) -> Self {
        self.long = true;
        for phy in &mut self.phys {
            phy.long = true;
        }
        self
    }

    /// The bytes of the address and of the REPORT GENERAL response.
    pub fn size(&self) -> usize {
        8 + if self.long { 68 } else { 28 }
    }
}

impl Phy {
    /// The bytes of the DISCOVER response.
    pub fn size(&self) -> usize {
        if self.long {
            64
        } else {
            52
        }
    }
}

#[derive(Clone, Debug, Default)]
pub struct DomainFile {
    pub expanders: Vec<Expander>,
}

impl DomainFile {
    pub fn of(expanders: Vec<Expander>) -> DomainFile {
        DomainFile { expanders }
    }

    /// The file with zeros in all ignored bytes and bits.
    pub fn bytes(&self) -> Vec<u8> {
        self.bytes_with(&mut || 0)
    }

    /// The file with ignored bytes and bits taken from `junk`.
    pub fn bytes_with(&self, junk: &mut dyn FnMut() -> u8) -> Vec<u8> {
        let mut file = vec![0x10, self.expanders.len() as u8];
        for expander in &self.expanders {
            file.extend(expander.address.to_be_bytes());
            file.extend(general(
                expander.route_indexes,
                expander.phys.len() as u8,
                expander.configurable,
                expander.long,
                junk,
            ));
            for phy in &expander.phys {
                file.extend(discover(phy, junk));
            }
        }
        file
    }

    /// Where the unit of an expander begins.
    pub fn expander_at(&self, expander: usize) -> usize {
        2 + self.expanders[..expander]
            .iter()
            .map(|earlier| earlier.size() + earlier.phys.iter().map(Phy::size).sum::<usize>())
            .sum::<usize>()
    }

    /// Where the unit of a phy begins.
    pub fn phy_at(&self, expander: usize, phy: usize) -> usize {
        let phys = &self.expanders[expander].phys;
        self.expander_at(expander)
            + self.expanders[expander].size()
            + phys[..phy].iter().map(Phy::size).sum::<usize>()
    }
}

/// A REPORT GENERAL response.
pub fn general(
    route_indexes: u16,
    phys: u8,
    configurable: bool,
    long: bool,
    junk: &mut dyn FnMut() -> u8,
) -> Vec<u8> {
    let (length, size) = if long { (0x10, 68) } else { (0x00, 28) };
    let mut frame: Vec<u8> = (0..size).map(|_| junk()).collect();
    frame[..4].copy_from_slice(&[0x41, 0x00, 0x00, length]);
    frame[6..8].copy_from_slice(&route_indexes.to_be_bytes());
    frame[9] = phys;
    frame[10] = frame[10] & 0xfe | configurable as u8;
    frame
}

/// A DISCOVER response.
pub fn discover(phy: &Phy, junk: &mut dyn FnMut() -> u8) -> Vec<u8> {
    let length = if phy.long { 0x0f } else { 0x00 };
    let mut frame: Vec<u8> = (0..phy.size()).map(|_| junk()).collect();
    frame[..4].copy_from_slice(&[0x41, 0x10, phy.result, length]);
    frame[9] = phy.identifier;
    frame[12] = frame[12] & 0x8f | (phy.device_type & 7) << 4;
    frame[16..24].copy_from_slice(&phy.own.to_be_bytes());
    frame[24..32].copy_from_slice(&phy.attached.to_be_bytes());
    frame[32] = phy.attached_phy;
    frame[44] = frame[44] & 0xf0 | phy.attribute & 15;
    frame
}

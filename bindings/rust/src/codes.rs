//! The codes of attached device type and routing attribute, in the order of the
//! standard.

pub const NO_DEVICE: u8 = 0b000;
pub const END_DEVICE: u8 = 0b001;
pub const EDGE_EXPANDER: u8 = 0b010;
pub const FANOUT_EXPANDER: u8 = 0b011;

pub const DIRECT: u8 = 0x0;
pub const SUBTRACTIVE: u8 = 0x1;
pub const TABLE: u8 = 0x2;

/// Reserved codes: 4 to 7 of the types, 3 to 15 of the attributes.
pub const RESERVED_3: u8 = 3;
pub const RESERVED_4: u8 = 4;
pub const RESERVED_5: u8 = 5;
pub const RESERVED_6: u8 = 6;
pub const RESERVED_7: u8 = 7;
pub const RESERVED_8: u8 = 8;
pub const RESERVED_9: u8 = 9;
pub const RESERVED_10: u8 = 10;
pub const RESERVED_11: u8 = 11;
pub const RESERVED_12: u8 = 12;
pub const RESERVED_13: u8 = 13;
pub const RESERVED_14: u8 = 14;
pub const RESERVED_15: u8 = 15;

//! The calls on a single frame.

use crate::places::Phy;
use crate::raw;
use crate::refusals::{accepted, Refusal};

/// The fields of a CONFIGURE ROUTE INFORMATION request. `length` is its byte 3,
/// REQUEST LENGTH: 00h or 09h.
#[derive(Clone, Copy, Debug, PartialEq, Eq, Hash)]
pub struct Route {
    pub length: u8,
    pub phy: Phy,
    pub index: u16,
    pub address: u64,
    pub disabled: bool,
}

/// The fields of a REPORT GENERAL response.
#[derive(Clone, Copy, Debug, PartialEq, Eq, Hash)]
pub struct General {
    pub route_indexes: u16,
    pub phys: u8,
    pub configurable: bool,
}

/// The fields that a SAS-2 reader shows of a long REPORT GENERAL response.
#[derive(Clone, Copy, Debug, PartialEq, Eq, Hash)]
pub struct LongGeneral {
    pub table_to_table_supported: bool,
    pub configures_others: bool,
}

/// What a SAS-2 reader shows of a REPORT GENERAL response. `long` is `None` where
/// the frame is short.
#[derive(Clone, Copy, Debug, PartialEq, Eq, Hash)]
pub struct GeneralSas2 {
    pub general: General,
    pub long: Option<LongGeneral>,
}

/// The fields of a DISCOVER response, unchecked, or a vacant phy.
/// [`codes`](crate::codes) names the types and attributes.
#[derive(Clone, Copy, Debug, PartialEq, Eq, Hash)]
pub enum Discover {
    Vacant {
        result: u8,
    },
    Phy {
        identifier: Phy,
        device_type: u8,
        attribute: u8,
        own: u64,
        attached: u64,
        attached_phy: Phy,
    },
}

/// Writes a CONFIGURE ROUTE INFORMATION request; gives the forty bytes written.
///
/// ```
/// use metzurgo::{read_route, write_route, Phy, Route};
/// let route = Route {
///     length: 0x09,
///     phy: Phy(3),
///     index: 5,
///     address: 0x50000000000000b1,
///     disabled: true,
/// };
/// let mut buf = [0; 40];
/// let frame = write_route(&mut buf, route)?;
/// assert_eq!((frame[1], frame[3], frame[9], frame[12]), (0x90, 0x09, 3, 0x80));
/// assert_eq!(read_route(frame)?, route);
/// # Ok::<(), metzurgo::Refusal>(())
/// ```
pub fn write_route(buf: &mut [u8], route: Route) -> Result<&mut [u8], Refusal> {
    let Route {
        length,
        phy,
        index,
        address,
        disabled,
    } = route;
    let answer = raw::write_route(buf, length, phy.0, index, address, disabled.into());
    let written = accepted(answer)?;
    Ok(&mut buf[..written as usize])
}

/// Reads a CONFIGURE ROUTE INFORMATION request.
pub fn read_route(frame: &[u8]) -> Result<Route, Refusal> {
    accepted(raw::read_route(frame)).map(|answer| Route {
        length: (answer >> 24) as u8,
        phy: Phy((answer >> 16) as u8),
        index: answer as u16,
        address: raw::read_route_address(frame),
        disabled: answer >> 32 == 1,
    })
}

fn general(answer: u64) -> General {
    General {
        route_indexes: (answer >> 16) as u16,
        phys: (answer >> 8) as u8,
        configurable: answer & 1 == 1,
    }
}

/// Reads a REPORT GENERAL response by itself, short or long.
///
/// ```
/// # let file = include_bytes!(concat!(env!("CARGO_MANIFEST_DIR"), "/../../crates/routes/stdin"));
/// let general = metzurgo::read_general(&file[10..38])?;
/// assert_eq!((general.route_indexes, general.phys, general.configurable), (4, 2, true));
/// # Ok::<(), metzurgo::Refusal>(())
/// ```
pub fn read_general(frame: &[u8]) -> Result<General, Refusal> {
    accepted(raw::read_general(frame)).map(general)
}

/// Reads a REPORT GENERAL response by itself, as SAS-2 has it.
pub fn read_general_sas2(frame: &[u8]) -> Result<GeneralSas2, Refusal> {
    accepted(raw::read_general_sas2(frame)).map(|answer| GeneralSas2 {
        general: general(answer),
        long: (answer >> 34 == 1).then_some(LongGeneral {
            table_to_table_supported: answer >> 33 & 1 == 1,
            configures_others: answer >> 32 & 1 == 1,
        }),
    })
}

/// Reads a DISCOVER response by itself, short or long.
///
/// ```
/// use metzurgo::{codes, read_discover, Discover, Phy};
/// # let file = include_bytes!(concat!(env!("CARGO_MANIFEST_DIR"), "/../../crates/routes/stdin"));
/// let Discover::Phy { identifier, device_type, .. } = read_discover(&file[230..282])? else {
///     panic!("this phy is not vacant");
/// };
/// assert_eq!((identifier, device_type), (Phy(1), codes::END_DEVICE));
/// # Ok::<(), metzurgo::Refusal>(())
/// ```
pub fn read_discover(frame: &[u8]) -> Result<Discover, Refusal> {
    accepted(raw::read_discover(frame)).map(|answer| {
        if answer >> 62 == 1 {
            Discover::Vacant {
                result: answer as u8,
            }
        } else {
            Discover::Phy {
                identifier: Phy((answer >> 32) as u8),
                device_type: (answer >> 24) as u8,
                attribute: (answer >> 16) as u8,
                own: raw::discover_own(frame),
                attached: raw::discover_attached(frame),
                attached_phy: Phy(answer as u8),
            }
        }
    })
}

//! Addresses and the settings of interfaces: which are used, which addresses are ours, the groups, and the order of
//! addresses.

use crate::calls::{Address, Setting};
use crate::faults::{self, Fault};
use crate::lines::Endpoint;

const PORT: u16 = 5355;
const GROUP_4: [u8; 16] = [224, 0, 0, 252, 0, 0, 0, 0, 0, 0, 0, 0, 0, 0, 0, 0];
const GROUP_6: [u8; 16] = [0xFF, 2, 0, 0, 0, 0, 0, 0, 0, 0, 0, 0, 0, 1, 0, 3];

/// The setting of an interface by its number; a number above 3 is that of an unused one.
pub fn setting(settings: &[Setting; 4], interface: u8) -> Setting {
    settings.get(usize::from(interface)).copied().unwrap_or(Setting::UNUSED)
}

/// Any family other than 4 or 6 means an unused interface.
pub fn is_used(setting: &Setting) -> bool {
    matches!(setting.address.family, 4 | 6)
}

/// The repeat interval in milliseconds: any value other than 100 counts as 1,000.
pub fn interval(setting: &Setting) -> u64 {
    if setting.interval == 100 {
        100
    } else {
        1_000
    }
}

/// Family 4 uses the first four octets and ignores the rest.
fn used_octets(address: &Address) -> &[u8] {
    if address.family == 4 {
        &address.octets[..4]
    } else {
        &address.octets
    }
}

pub fn same(one: &Address, other: &Address) -> bool {
    one.family == other.family && used_octets(one) == used_octets(other)
}

/// Order of addresses of one family is octet by octet, first octet first.
pub fn is_below(one: &Address, other: &Address, fault: Fault) -> bool {
    if fault == faults::LITTLE_ENDIAN && one.family == 4 {
        return used_octets(one).iter().rev().lt(used_octets(other).iter().rev());
    }
    used_octets(one) < used_octets(other)
}

/// Whether the address is that of a used interface.
pub fn is_ours(settings: &[Setting; 4], address: &Address) -> bool {
    settings.iter().any(|setting| is_used(setting) && same(&setting.address, address))
}

fn group(family: u8) -> Address {
    Address { family, octets: if family == 4 { GROUP_4 } else { GROUP_6 } }
}

pub fn is_group(address: &Address, fault: Fault) -> bool {
    if fault == faults::GROUP_ALL_OCTETS {
        return *address == group(address.family);
    }
    same(address, &group(address.family))
}

/// Where the queries of an interface go: its family's group, at port 5355.
pub fn group_endpoint(setting: &Setting) -> Endpoint {
    Endpoint { address: group(setting.address.family), port: PORT }
}

//! The sizes that the paper fixes.

/// Most states of a chart.
pub const STATES: usize = 48;
/// Fewest states of a chart.
pub const FEWEST_STATES: usize = 2;
/// Most clocks.
pub const CLOCKS: usize = 8;
/// Most variables.
pub const VARIABLES: usize = 16;
/// Most channels of a chart, rendezvous and broadcast together.
pub const CHANNELS: usize = 16;
/// Most entries.
pub const ENTRIES: usize = 16;
/// Most exits.
pub const EXITS: usize = 8;
/// Most transitions.
pub const TRANSITIONS: usize = 64;
/// Most sequential states, and so most automata.
pub const AUTOMATA: usize = 16;
/// Most locations of a network.
pub const LOCATIONS: usize = 192;
/// Most edges of a network.
pub const EDGES: usize = 1024;
/// Most rendezvous channels of a network.
pub const NETWORK_RENDEZVOUS: usize = 16;
/// Most broadcast channels of a network.
pub const NETWORK_BROADCAST: usize = 144;
/// Levels that an expression may nest, a constant or variable being one.
pub const LEVELS: usize = 8;
/// Bytes of a chart's header.
pub const CHART_HEADER: usize = 11;
/// Bytes of a network's header.
pub const NETWORK_HEADER: usize = 13;
/// Most bytes of a chart file.
pub const CHART_BYTES: usize = 65_536;
/// Most numbers in the list of a step.
pub const LIST: usize = 16;
/// The largest bound, clock value, clock constant and divisor.
pub const LARGEST: u32 = 2_147_483_647;
/// The bound that stands for no bound.
pub const NO_BOUND: u32 = 0xFFFF_FFFF;
/// The byte that stands for no parent, exit, entry, channel, transition or tested exit.
pub const NONE: u8 = 255;
/// The byte that stands for an advance where the variable of an assignment may stand.
pub const ADVANCE: u8 = 255;
/// Bytes of an advance, that one included.
pub const ADVANCE_BYTES: usize = 7;

/// The lowest `count` bits of a set of marks.
pub fn lowest_bits(count: usize) -> u32 {
    if count >= 32 {
        u32::MAX
    } else {
        (1 << count) - 1
    }
}

//! The numbers of documents 01 and 02 that a later paper may change, one place for each.

/// "L below 9": the least length of a configuration.
pub const CONFIGURATION_LEAST: usize = 9;
/// "or above 4,096": the greatest length of a configuration.
pub const CONFIGURATION_MOST: usize = 4096;
/// "no entity, or more than 32".
pub const ENTITIES: usize = 32;
/// "Pins go up to 24 in all kinds".
pub const PINS: usize = 24;
/// The source IDs of an old record.
pub const OLD_PINS: usize = 8;
/// "c is 1 to 16"; also the highest channel that a control may have.
pub const CHANNELS: usize = 16;
/// "more than 128 controls".
pub const CONTROLS: usize = 128;
/// The duet box "holds at most 192 controls for both sides together".
pub const DUET_CONTROLS: usize = 192;
/// "The new record is 32 bytes": eight bytes and then one for each pin.
pub const RECORD: usize = 8 + PINS;
/// "Records of 16 bytes": those of an old sheet.
pub const OLD_RECORD: usize = 8 + OLD_PINS;
/// "Demand 3's lent sheet becomes 1,024 bytes. The program `sheet` lends as many", and so does `relay`.
pub const SHEET: usize = RECORD * ENTITIES;
/// The kind of a Selector, and the one that old sheets show for a printed Selector.
pub const SELECTORS: [u8; 2] = [0x05, 0x15];
/// The most bytes that a step of a `relay` or `duet` script, the configuration of a `lend` step, or the
/// configuration or the cluster buffer of a `lend3` step may have.
pub const STEP: usize = 8192;
/// The most room that a reply buffer of a `relay` or `duet` script may have.
pub const REPLY: usize = 64;
/// The most bytes that a step of `lend` or `lend3` may ask for, and a move of `sheets`.
pub const LENT: usize = 2048;
/// What each byte is that such a step lends, before anything is written to it.
pub const MARK: u8 = 0xAA;
/// How many of them are shown on a line.
pub const LINE: usize = 16;
/// "46 if there are more than 256 routes".
pub const ROUTES: usize = 256;
/// What the program `way` lends: so many routes of an ID for each entity and 00 after the last.
pub const WAY: usize = ROUTES * (ENTITIES + 1);
/// The most bytes that a step of `routes` may lend.
pub const LIST: usize = 16384;
/// "an entity that would pass 255 bytes": the most that a length byte can say.
pub const DESCRIPTOR: usize = 255;
/// "47 if the collection list has more than 247 numbers".
pub const COLLECTION: usize = DESCRIPTOR - 8;
/// The most bytes that a step of `writer` may lend.
pub const ROOM: usize = 9000;
/// The most numbers that the collection list of such a step may have, and the most bytes an entity.
pub const FIELDS: usize = 600;
/// "An AudioControl interface whose protocol byte (offset 7) is 0x30".
pub const EDITION_3: u8 = 0x30;
/// "length at 0..1, 7 or more": the least length of a cluster descriptor.
pub const CLUSTER_LEAST: usize = 7;

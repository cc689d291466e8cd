//! The counter's own layouts (PROTOCOL 7): status (8 bytes) and control (4 bytes), after the first payload byte.

use crate::messages::Refusal;

pub const STATUS_SIZE: usize = 8;
pub const CONTROL_SIZE: usize = 4;
/// Modes: 0 fold, 1 gather, 2 sew. Two bits hold one value more.
const NO_MODE: u8 = 3;

pub struct Status {
    feeding: bool,
    lamp: bool,
    mode: u8,
    volume: u16,
    leaf: u32,
    double_leaf: bool,
    skipped_leaf: bool,
    sensor_fault: bool,
}

impl Status {
    pub fn read(bytes: [u8; STATUS_SIZE]) -> Result<Status, Refusal> {
        let [switches, volume_high, volume_low, leaf @ .., faults] = bytes;
        let mode = switches >> 2 & 3;
        if switches & 0xF0 != 0 || faults & 0xF8 != 0 || mode == NO_MODE {
            return Err(Refusal::Field);
        }
        Ok(Status {
            feeding: bit(switches, 0),
            lamp: bit(switches, 1),
            mode,
            volume: u16::from_be_bytes([volume_high, volume_low]),
            leaf: u32::from_be_bytes(leaf),
            double_leaf: bit(faults, 0),
            skipped_leaf: bit(faults, 1),
            sensor_fault: bit(faults, 2),
        })
    }

    pub fn written(&self) -> [u8; STATUS_SIZE] {
        let switches = u8::from(self.feeding) | u8::from(self.lamp) << 1 | self.mode << 2;
        let faults = u8::from(self.double_leaf) | u8::from(self.skipped_leaf) << 1 | u8::from(self.sensor_fault) << 2;
        let [volume_high, volume_low] = self.volume.to_be_bytes();
        let [a, b, c, d] = self.leaf.to_be_bytes();
        [switches, volume_high, volume_low, a, b, c, d, faults]
    }

    pub fn values(&self) -> Vec<u64> {
        vec![
            self.feeding.into(),
            self.lamp.into(),
            self.mode.into(),
            self.volume.into(),
            self.leaf.into(),
            self.double_leaf.into(),
            self.skipped_leaf.into(),
            self.sensor_fault.into(),
        ]
    }
}

/// What is to be set; None is left as it is.
pub struct Control {
    lamp: Option<bool>,
    mode: Option<u8>,
    volume: Option<u16>,
}

impl Control {
    pub fn read(bytes: [u8; CONTROL_SIZE]) -> Result<Control, Refusal> {
        let [flags, switches, volume_high, volume_low] = bytes;
        let control = Control {
            lamp: bit(flags, 0).then_some(bit(switches, 0)),
            mode: bit(flags, 1).then_some(switches >> 1 & 3),
            volume: bit(flags, 2).then_some(u16::from_be_bytes([volume_high, volume_low])),
        };
        if flags & 0xF8 != 0 || switches & 0xF8 != 0 || control.mode == Some(NO_MODE) {
            return Err(Refusal::Field);
        }
        Ok(control)
    }

    pub fn written(&self) -> [u8; CONTROL_SIZE] {
        let [volume_high, volume_low] = self.volume.unwrap_or(0).to_be_bytes();
        let switches = u8::from(self.lamp.unwrap_or(false)) | self.mode.unwrap_or(0) << 1;
        [self.flags(), switches, volume_high, volume_low]
    }

    pub fn values(&self) -> Vec<u64> {
        vec![
            self.lamp.is_some().into(),
            self.mode.is_some().into(),
            self.volume.is_some().into(),
            self.lamp.unwrap_or(false).into(),
            self.mode.unwrap_or(0).into(),
            self.volume.unwrap_or(0).into(),
        ]
    }

    fn flags(&self) -> u8 {
        u8::from(self.lamp.is_some()) | u8::from(self.mode.is_some()) << 1 | u8::from(self.volume.is_some()) << 2
    }
}

fn bit(byte: u8, place: u8) -> bool {
    byte >> place & 1 == 1
}

//! What document 01 gives to be compared with: its geometry G, and its simulator's example with the steps it prints.
use crate::flash::Geometry;
use crate::header;
use crate::powered::two_slots;
use crate::writer::{self, Fields, Parts};

pub const G: Geometry = Geometry { sector_size: 256, sector_count: 2, boot: 0, update: 768, swap: 1536 };
pub const G_LEN: usize = 1792;

pub const EXCHANGE: &str = "C 768 1536; B 1530 247; E 768; C 0 768; B 1530 243; E 0; C 1536 0; B 1530 240; E 1536; \
    C 1024 1536; B 1530 112; E 1024; C 256 1024; B 1530 48; E 256; C 1536 256; B 1530 0; B 763 16; M 764; B 1531 48";

/// The example's flash, with UPDATE not yet triggered.
pub fn example() -> Vec<u8> {
    let [boot, update] = [(1, 0x11), (2, 0x22)].map(|(version, byte)| {
        let (fields, firmware) = (Fields { version, timestamp: 0, firmware_type: 0 }, [byte; 256]);
        let mut header = vec![0; header::SIZE];
        let parts = Parts { fields, firmware: &firmware, custom: &[], hint: &[0; 32] };
        writer::write_header(&mut header, &parts, &[0; 64]).expect("the parts are well formed");
        [header, firmware.to_vec()].concat()
    });
    two_slots(vec![0xff; G_LEN], &G, &boot, &update)
}

//! The writer of document 01's header, written plainly beside the reader in `header`.
use crate::header::{DIGEST, FIRMWARE_TYPE, HINT, MARK, SIGNATURE, SIZE, TIMESTAMP, VERSION};
use crate::sha256;

pub const MOST_FIRMWARE: usize = 4_294_967_039;
pub const MOST_CUSTOM: usize = 82;
pub const NAMED: [u16; 6] = [VERSION, TIMESTAMP, DIGEST, HINT, SIGNATURE, FIRMWARE_TYPE];

/// As C passes it, so that the library is given the same record.
#[repr(C)]
#[derive(Clone, Copy, Debug)]
pub struct Fields {
    pub version: u32,
    pub timestamp: u64,
    pub firmware_type: u16,
}

/// What the writer is given, beside the buffer and the signature.
#[derive(Clone, Copy)]
pub struct Parts<'a> {
    pub fields: Fields,
    pub firmware: &'a [u8],
    pub custom: &'a [u8],
    pub hint: &'a [u8; 32],
}

/// Whole tags with no padding, of types that are free for custom use.
fn custom_well_formed(mut run: &[u8]) -> bool {
    while let [k0, k1, l0, l1, rest @ ..] = run {
        let (kind, len) = (u16::from_le_bytes([*k0, *k1]), u16::from_le_bytes([*l0, *l1]) as usize);
        if kind == 0 || *k0 == 0xff || NAMED.contains(&kind) || len > rest.len() {
            return false;
        }
        run = &rest[len..];
    }
    run.is_empty()
}

/// Writes a tag and gives the place after it.
fn put(header: &mut [u8; SIZE], place: usize, kind: u16, content: &[u8]) -> usize {
    let at = place + 4;
    header[place..place + 2].copy_from_slice(&kind.to_le_bytes());
    header[place + 2..at].copy_from_slice(&(content.len() as u16).to_le_bytes());
    header[at..at + content.len()].copy_from_slice(content);
    at + content.len()
}

/// Numbers 12, 26, 27. Gives the header up to its digest tag, FF from there on, and that place.
fn unsigned(parts: &Parts) -> Result<([u8; SIZE], usize), u32> {
    let Parts { fields, firmware, custom, hint } = parts;
    if firmware.is_empty() || firmware.len() > MOST_FIRMWARE {
        return Err(12);
    }
    if custom.len() > MOST_CUSTOM {
        return Err(26);
    }
    if !custom_well_formed(custom) {
        return Err(27);
    }
    let mut header = [0xff; SIZE];
    header[..4].copy_from_slice(&MARK);
    header[4..8].copy_from_slice(&(firmware.len() as u32).to_le_bytes());
    let place = put(&mut header, 8, VERSION, &fields.version.to_le_bytes());
    let place = put(&mut header, place, TIMESTAMP, &fields.timestamp.to_le_bytes());
    let place = put(&mut header, place, FIRMWARE_TYPE, &fields.firmware_type.to_le_bytes());
    header[place..place + custom.len()].copy_from_slice(custom);
    let place = put(&mut header, place + custom.len(), HINT, *hint);
    Ok((header, place))
}

/// The writer's first call.
pub fn digest_to_sign(parts: &Parts) -> Result<[u8; 32], u32> {
    let (header, place) = unsigned(parts)?;
    Ok(sha256::digest_of_two(&header[..place], parts.firmware))
}

/// The writer's second call.
pub fn write_header(buffer: &mut [u8], parts: &Parts, signature: &[u8; 64]) -> Result<(), u32> {
    let buffer: &mut [u8; SIZE] = buffer.try_into().map_err(|_| 10u32)?;
    let (mut header, place) = unsigned(parts)?;
    let digest = sha256::digest_of_two(&header[..place], parts.firmware);
    let place = put(&mut header, place, DIGEST, &digest);
    put(&mut header, place, SIGNATURE, signature);
    *buffer = header;
    Ok(())
}

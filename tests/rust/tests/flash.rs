//! The library's carrying out of steps against the plain one, and against what document 01 says of its geometry G.
use frondicare_tests::flash::{Geometry, Step};
use frondicare_tests::frondicare;
use frondicare_tests::guarded::Guarded;
use frondicare_tests::layouts::{self, SECTOR_SIZES};
use frondicare_tests::paper::{EXCHANGE, G};
use frondicare_tests::random::Random;
use frondicare_tests::raw_step::RawStep;
use frondicare_tests::seen::Seen;

/// A free sector before and after every area.
const GAPS: Geometry = Geometry { sector_size: 256, sector_count: 1, boot: 256, update: 1024, swap: 1792 };
const GAPS_LEN: usize = 2304;

/// A geometry that fits its flash, or has a fault, and the flash.
fn any_flash(random: &mut Random) -> (Geometry, Guarded) {
    let most = random.one_of(&[1, 3, 8]);
    let sizes = if random.percent(5) { (256, 64) } else { layouts::sizes(random, most) };
    let start = sizes.0 * random.up_to(2);
    let (mut geometry, end) = layouts::placed(random, sizes, start);
    let len = end + random.one_of(&[0, 0, 1, sizes.0]) - usize::from(random.percent(5));
    if random.percent(15) {
        layouts::disturb(random, &mut geometry);
    }
    let contents = layouts::contents(random, len);
    (geometry, Guarded::new(&contents, random.up_to(15)))
}

#[test]
fn steps() {
    let mut random = Random::new();
    let mut seen: [Seen; 5] = Default::default();
    for _ in 0..20_000 {
        let (geometry, mut flash) = any_flash(&mut random);
        for _ in 0..6 {
            let step = layouts::step(&mut random, &geometry);
            seen[step.op.min(4) as usize].add(flash.apply(&geometry, step));
        }
    }
    let [of_erase, of_copy, of_byte, of_mark, of_none] = seen;
    for of_a_kind in [of_erase, of_copy, of_byte, of_mark] {
        of_a_kind.each(100, &[0, 1, 2, 3, 4, 24]);
    }
    of_none.each(20, &[1, 2, 3, 4, 24]);
}

/// Every step kind at every place of a flash, and at places near 2^64 and 2^32: accepted as the lists here say.
#[test]
fn every_place() {
    const SECTORS: [usize; 5] = [256, 512, 1024, 1280, 1792];
    let contents = Random::new().bytes(GAPS_LEN);
    let far = (0..600).flat_map(|i| [usize::MAX - i, (1 << 32) + i, (1 << 32) + 2 * 256 + i]);
    for at in (0..GAPS_LEN + 600).chain(far) {
        let (sector, in_trailer) = (SECTORS.contains(&at), (512..768).contains(&at) || (1280..1536).contains(&at));
        for (step, accepted) in [
            (Step::Erase { at }, sector),
            (Step::Copy { from: at, to: 1792 }, sector && at != 1792),
            (Step::Copy { from: 512, to: at }, sector && at != 512),
            (Step::Byte { at, value: 0x5a }, in_trailer),
            (Step::Mark { at }, at == 764 || at == 1532),
        ] {
            let number = Guarded::new(&contents, 0).apply(&GAPS, step);
            assert_eq!(number, if accepted { 0 } else { 24 }, "{step:?}");
        }
    }
}

/// The largest flash of each sector size: every sector erased, and copied from its neighbour.
#[test]
fn every_sector() {
    let mut random = Random::new();
    for sector_size in SECTOR_SIZES {
        let [boot, update, swap] = [66, 1, 0].map(|i| i * sector_size);
        let geometry = Geometry { sector_size, sector_count: 64, boot, update, swap };
        let mut flash = Guarded::new(&random.bytes(131 * sector_size), 1);
        for i in 0..131 {
            let (at, from) = (i * sector_size, (i + 1) % 131 * sector_size);
            assert_eq!(flash.apply(&geometry, Step::Copy { from, to: at }), 0);
            assert_eq!(flash.apply(&geometry, Step::Erase { at }), 0);
            assert!(flash.flash()[at..at + sector_size].iter().all(|&byte| byte == 0xff));
            assert_eq!(flash.apply(&geometry, Step::Copy { from, to: at }), 0);
            assert_eq!(flash.flash()[at..at + sector_size], flash.flash()[from..from + sector_size]);
        }
    }
}

/// Every byte onto every byte: a write can only clear bits. A value of more than eight bits is no byte.
#[test]
fn every_bit() {
    let all: Vec<u8> = (0..=255).collect();
    for shift in 0..=255u8 {
        let mut flash = vec![0xff; 1792];
        flash[512..768].copy_from_slice(&all);
        flash[1280..1536].copy_from_slice(&all);
        flash[1280..1536].rotate_left(shift as usize);
        let anded: Vec<u8> = (0..=255u8).map(|byte| byte & byte.wrapping_add(shift)).collect();
        let mut copied = flash.clone();
        assert_eq!(frondicare::apply_step(&mut copied, &G, Step::Copy { from: 512, to: 1280 }), 0);
        assert_eq!(copied[1280..1536], anded);
        for (i, &value) in all.iter().enumerate() {
            assert_eq!(frondicare::apply_step(&mut flash, &G, Step::Byte { at: 1280 + i, value }), 0);
        }
        assert_eq!(flash[1280..1536], anded);
        flash[764..768].fill(shift);
        assert_eq!(frondicare::apply_step(&mut flash, &G, Step::Mark { at: 764 }), 0);
        assert_eq!(flash[764..768], [0x42, 0x4f, 0x4f, 0x54].map(|byte: u8| byte & shift));
    }
    for value in (8..32).map(|i| 1 << i).chain([257, 511, 65535, u32::MAX]) {
        let step = RawStep { op: 2, at: 763, to: 0, value };
        assert_eq!(Guarded::new(&[0xff; 1792], 0).apply(&G, step), 24, "value {value}");
    }
}

fn parsed(text: &str) -> Step {
    let mut words = text.split(' ');
    let letter = words.next().unwrap();
    let numbers: Vec<usize> = words.map(|word| word.parse().unwrap()).collect();
    match (letter, &numbers[..]) {
        ("E", &[at]) => Step::Erase { at },
        ("C", &[from, to]) => Step::Copy { from, to },
        ("B", &[at, value]) => Step::Byte { at, value: value as u8 },
        ("M", &[at]) => Step::Mark { at },
        _ => panic!("{text}"),
    }
}

/// The paper's steps, carried out on two images, exchange them, close BOOT's trailer on trial and leave UPDATE spent.
#[test]
fn exchange() {
    let mut random = Random::new();
    let (old, new) = (random.bytes(512), random.bytes(512));
    let mut flash = vec![0xff; 1792];
    flash[..512].copy_from_slice(&old);
    flash[768..1280].copy_from_slice(&new);
    let trigger = [Step::Byte { at: 1531, value: 0x70 }, Step::Mark { at: 1532 }];
    for step in trigger.into_iter().chain(EXCHANGE.split("; ").map(parsed)) {
        assert_eq!(frondicare::apply_step(&mut flash, &G, step), 0, "{step:?}");
    }
    assert_eq!((&flash[..512], &flash[768..1280]), (&new[..], &old[..]));
    assert!(flash[512..763].iter().chain(&flash[1280..1530]).all(|&byte| byte == 0xff));
    assert_eq!(flash[763..768], *b"\x10BOOT");
    assert_eq!(flash[1530..1536], *b"\x00\x30BOOT");
    assert_eq!(flash[1536..], new[256..]);
}

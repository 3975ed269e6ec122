//! A kind and a seed give the same script on every machine, and the same
//! answers to it.

use independent::generator::kinds::{kind_named, KINDS};
use independent::generator::script::{script, write_script};
use independent::lines::{answers_to, Record};

/// Fowler, Noll and Vo's 64-bit sum, 1a.
fn sum(bytes: &[u8]) -> u64 {
    bytes.iter().fold(0xCBF2_9CE4_8422_2325, |sum, &byte| {
        (sum ^ u64::from(byte)).wrapping_mul(0x0000_0100_0000_01B3)
    })
}

/// Each kind, and the sums of its script of seed 1 and 20,000 samples and of
/// the answers to it. A new rule of the tuner alters answers alone.
const SUMS: &[(&str, u64, u64)] = &[
    ("opening", 0xD224_CFFF_5E9C_CD3D, 0xE984_8432_3C3D_6377),
    ("tones", 0x62A9_D4E4_F6F1_4DD5, 0x1368_0B86_A445_4F88),
    ("glides", 0x7452_708A_D386_0226, 0x975A_FF9D_E81B_9B95),
    ("vibrato", 0x0B6A_3AB8_CE5B_3D8A, 0x3C57_1569_E6C1_C8FE),
    ("hollow", 0xFD32_FA45_55D9_C7AE, 0x05A3_2655_315D_2C97),
    ("noise", 0x66D5_25D2_A64D_70F4, 0x9A28_7C8E_88AE_0A1D),
    ("tails", 0x51D1_FB0A_297F_3667, 0xE20B_59BE_54C4_A59B),
    ("squares", 0x236A_5C8D_9928_9AB1, 0xCF47_6542_8C77_E01C),
    ("steps", 0x17C8_B02E_7462_A4E1, 0x9539_B035_1400_3ADE),
    ("pulses", 0xE96B_2F59_6C01_F92A, 0x0584_670A_EF78_0EDC),
    ("soft", 0xC73D_0B8F_21A5_E9CC, 0x205B_C8BE_ECE1_0EC7),
    ("cycles", 0x3025_5E60_1D00_E03D, 0xB79F_7AC2_DD3F_048B),
    ("shifted", 0x8AFC_0FE0_8588_7066, 0x54AB_3216_FBE0_3B79),
    ("halves", 0xB136_BA40_D643_F63F, 0x15E8_9AE1_811D_CD15),
    ("level", 0xFA02_DA13_27A5_6512, 0xBEF8_6B82_7587_1A81),
    ("brink", 0x511B_5731_2EA4_E376, 0x87D1_278E_2C67_D361),
    ("brim", 0x6D8D_2078_CB1C_4640, 0x3FE6_7C5E_9335_1B27),
    ("settings", 0xB7C1_DBA0_E78D_22A7, 0xF847_4A2F_D8F1_02B1),
    ("choices", 0x6CDC_91D2_40F4_1CE0, 0x06CA_45B1_F006_90D3),
    ("ones", 0x9D8C_7CFD_7DF7_C37B, 0xB8B2_637F_6668_D724),
    ("rough", 0xBFFB_6E43_CC33_C5DF, 0x6164_6028_27ED_345A),
    ("unreadable", 0x05EB_9BAA_82E5_B620, 0xE1A0_CB7D_7925_7009),
    ("mixed", 0x3662_D1A7_38DE_2309, 0x5155_4789_AE25_3011),
    ("melody", 0x52CD_A5F1_DA33_8AD9, 0x7EC6_1974_5D54_CD70),
    ("played", 0xD156_A065_9698_62A5, 0x4323_0E6A_A9BB_E573),
    ("octaves", 0xEAB1_CE2C_CCEB_6675, 0xFF0E_3548_950D_292C),
    ("outside", 0x1673_08CB_48AB_48BA, 0x4804_F9F5_7244_B5C9),
    ("trill", 0x913A_E882_BA82_2949, 0xCCEA_872B_199D_42A3),
    ("pieces", 0x3C27_FE6C_ED0D_C670, 0xAD6E_264E_81F2_E7E0),
    ("bytes", 0x04A0_7B57_E116_7EB7, 0x54D9_6EA4_6AD4_0B3E),
    ("goals", 0x0E81_4893_A718_C4BA, 0x2650_7943_04D7_A6EE),
    ("decays", 0xBA42_1296_0B97_68D2, 0xABAD_ECA6_5CCE_4604),
    ("keys", 0x5EF0_4642_A14B_567F, 0x4A0A_FBE2_811C_208E),
    ("film", 0xC878_C685_72C7_5D4C, 0xA781_9C69_DB23_6D59),
    ("rates", 0x451F_2851_EC9B_4443, 0x435F_9CE5_9561_0DD3),
    ("ends", 0x5C51_D5C0_5FEA_C698, 0xCA4A_7862_B12B_6DDA),
    ("cuts", 0x4CF6_374F_E2A9_5169, 0xC256_F88B_C0CA_1F36),
    ("rests", 0x3313_CCA1_693B_F88C, 0x8EE5_BE82_5785_921D),
    ("within", 0x8160_1FD7_79C8_2B32, 0xF2F1_6D45_A06D_95A8),
    ("rows", 0x2F56_AC6D_1636_1D95, 0x2F5E_F50A_EF0D_3C30),
    ("takes", 0xAB87_A179_F0F5_6B7D, 0x2F20_0CA9_DD8E_3DC9),
    ("hostile", 0x5791_3910_F51A_281C, 0x3722_3782_AC7C_5E68),
    ("endless", 0x4781_3C14_FD81_70D8, 0x427C_84C0_40B9_EA7D),
];

#[test]
fn scripts_and_answers_are_the_stored_ones() {
    for (kind, stored) in KINDS.iter().zip(SUMS) {
        let script = script(kind, 1, 20_000);
        let (answers, _) = answers_to(&script);
        assert_eq!(&(kind.name, sum(&script), sum(&answers)), stored);
    }
    assert_eq!(KINDS.len(), SUMS.len());
}

#[test]
fn seeds_give_other_scripts() {
    for kind in KINDS {
        let first = script(kind, 1, 2_000);
        assert!(first == script(kind, 1, 2_000));
        assert!(first != script(kind, 2, 2_000));
    }
}

fn script_in_blocks_of(length: usize, kind: &str, seed: u64, samples: usize) -> Vec<u8> {
    let mut bytes = Vec::new();
    let kind = kind_named(kind).unwrap();
    write_script(kind, seed, samples, Some(length), &mut bytes).unwrap();
    bytes
}

#[test]
fn blocks_have_the_length_asked_for() {
    let bytes = script_in_blocks_of(512, "tones", 5, 5_120);
    let records = bytes.split(|&byte| byte == b'\n').map(Record::on);
    let lengths = records.filter_map(|record| match record {
        Some(Record::Block(_, samples)) => Some(samples.len()),
        _ => None,
    });
    let lengths: Vec<usize> = lengths.collect();
    assert_eq!(lengths[..10], [512; 10]);
    assert_eq!(lengths[10..], [3], "the line that closes a script");
}

/// The README shows the cycles that are repeated and dropped in them.
#[test]
fn the_example_takes_are_of_this_generator() {
    let take = include_bytes!("../../examples/vibrato_drawn_to_a.txt");
    assert!(take[..] == script_in_blocks_of(64, "shifted", 70, 19_200));
    let (_, seen) = answers_to(take);
    assert_eq!((seen.cycles_repeated, seen.cycles_dropped), (5, 6));
    let take = include_bytes!("../../examples/tone_drawn_to_a_melody.txt");
    assert!(take[..] == script(kind_named("melody").unwrap(), 221, 13_824));
    let (_, seen) = answers_to(take);
    assert_eq!((seen.cycles_repeated, seen.cycles_dropped), (6, 2));
    assert_eq!((seen.notes_on, seen.releases_by_velocity_0), (3, 3));
}

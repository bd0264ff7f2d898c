//! Letters of five columns, a byte each, the top of eight rows in the lowest bit.

const LETTERS: [u64; 26] = [
    0x20_54_54_54_78,
    0x7F_48_44_44_38,
    0x38_44_44_44_20,
    0x38_44_44_48_7F,
    0x38_54_54_54_18,
    0x08_7E_09_01_02,
    0x18_A4_A4_A4_7C,
    0x7F_08_04_04_78,
    0x00_44_7D_40_00,
    0x20_40_44_3D_00,
    0x7F_10_28_44_00,
    0x00_41_7F_40_00,
    0x7C_04_18_04_78,
    0x7C_08_04_04_78,
    0x38_44_44_44_38,
    0xFC_44_44_44_38,
    0x38_44_44_44_FC,
    0x7C_08_04_04_08,
    0x48_54_54_54_20,
    0x04_3F_44_40_20,
    0x3C_40_40_20_7C,
    0x1C_20_40_20_1C,
    0x3C_40_30_40_3C,
    0x44_28_10_28_44,
    0x1C_A0_A0_A0_7C,
    0x44_64_54_4C_44,
];
const DIGITS: [u64; 10] = [
    0x3E_51_49_45_3E,
    0x00_42_7F_40_00,
    0x42_61_51_49_46,
    0x21_41_45_4B_31,
    0x18_14_12_7F_10,
    0x27_45_45_45_39,
    0x3C_4A_49_49_30,
    0x01_71_09_05_03,
    0x36_49_49_49_36,
    0x06_49_49_29_1E,
];

/// The columns of a letter, a digit or a comma; none of another.
pub fn columns(letter: char) -> [u8; 5] {
    let columns = match letter {
        'a'..='z' => LETTERS[letter as usize - 'a' as usize],
        '0'..='9' => DIGITS[letter as usize - '0' as usize],
        'R' => 0x7F_09_19_29_46,
        ',' => 0x00_50_30_00_00,
        _ => 0,
    };
    std::array::from_fn(|at| (columns >> (8 * (4 - at))) as u8)
}

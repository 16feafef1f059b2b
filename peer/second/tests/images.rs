//! Images: the worked ones whole, and where the parts of an image stand.

use second::golay::word24;
use second::image::{protect, unprotect, write_image};

const PLAIN: &str = concat!(
    "11f0750080008101820283038404850586068707880889098a0a8b0b8c0c8d0d8e0e8f0f90109111921293139414951596169717981899",
    "199a1a9b1b9c1c9d1d9e1e9f1fa020a121a222a323a424a525a626a727a828a929aa2aab2bac2c"
);
const PROTECTED: &str = concat!(
    "11f0750080d87110d88c01624728503483735e4060b304cd1e5858528696397008a607a0e488200b89a1c6a070ff0a63fbb8481e8c44a1",
    "d078990dfe97e8f0218fef8e00b1e310692f19a13b92320831f1cf13045549190495e55a614970"
);

fn counting<const N: usize>(from: u8) -> [u8; N] {
    std::array::from_fn(|i| from.wrapping_add(i as u8))
}

fn hex(bytes: &[u8]) -> String {
    bytes.iter().map(|byte| format!("{byte:02x}")).collect()
}

#[test]
fn whole_images() {
    assert_eq!(hex(&write_image(17, 0, 0, &counting(0))), PLAIN);
    let useful = protect(&counting(0));
    assert_eq!(hex(&write_image(17, 0, 0, &useful)), PROTECTED);
}

#[test]
fn images_of_a_group() {
    let starts = [
        "11f0750080d8",
        "116409801627",
        "11e82200ad6d",
        "117c5e8043bc",
    ];
    for (index, start) in (0u8..).zip(starts) {
        let useful = protect(&counting(45 * index));
        let image = write_image(17, index.into(), 0, &useful);
        assert_eq!(hex(&image[..6]), start);
    }
}

#[test]
fn worked_words_of_counting_bytes() {
    let start = "00b1e320b01903c48e50a06806e7bc80c066";
    assert_eq!(hex(&protect(&counting(0))[..18]), start);
}

#[test]
fn zeros_show_the_parity_bit() {
    assert_eq!(protect(&[0; 45]).to_vec(), [0x00, 0x00, 0x80].repeat(30));
}

#[test]
fn segments_are_cut_lowest_bit_first() {
    let data: [u8; 45] = counting(0x5B);
    let useful = protect(&data);
    for (three, six) in data.chunks(3).zip(useful.chunks(6)) {
        let [a, b, c] = [three[0], three[1], three[2]].map(u32::from);
        let low = word24(a + 256 * (b % 16)).to_le_bytes();
        let high = word24(b / 16 + 16 * c).to_le_bytes();
        assert_eq!(six, [low[0], low[1], low[2], high[0], high[1], high[2]]);
    }
}

#[test]
fn protected_bytes_come_back() {
    for from in 0..=255 {
        let data = counting(from);
        assert_eq!(unprotect(&protect(&data)), Ok(data));
    }
}

#[test]
fn parts_stand_in_their_places() {
    let bare = write_image(0, 0, 0, &[0; 90]);
    assert_eq!(bare, [0; 94]);
    // The type byte begins in the top bit of byte 2, each useful byte in that of byte 3 and on.
    let types = write_image(0, 0, 0xC7, &[0; 90]);
    assert_eq!(types[..5], [0, 0, 0x80, 0x63, 0]);
    let mut useful = [0; 90];
    useful[89] = 0xFF;
    let last = write_image(0, 0, 0, &useful);
    assert_eq!(last[91..], [0, 0x80, 0x7F]);
}

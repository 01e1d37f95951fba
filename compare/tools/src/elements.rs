//! Request L7 of document 02: pushes of about 520 bytes, and at the edges of the length forms, set into fragments.

use crate::blank::pushes;
use crate::rng::Rng;

/// Sizes at the edges: of the forms 01 to 4b, 4c and 4d, and about 520.
pub const SIZES: [usize; 8] = [75, 76, 255, 256, 519, 520, 521, 522];

/// Every form that can say this size: 01 to 4b, 4c, 4d, 4e; each pushes these bytes.
pub fn forms(data: &[u8]) -> Vec<Vec<u8>> {
    let size = data.len();
    let length = (size as u32).to_le_bytes();
    let direct = (1..=75).contains(&size).then(|| vec![size as u8]);
    let one = (size <= 255).then(|| vec![0x4c, length[0]]);
    let two = (size <= 65_535).then(|| vec![0x4d, length[0], length[1]]);
    let four = Some([&[0x4e], &length[..]].concat());
    [direct, one, two, four].into_iter().flatten().map(|head| [&head, data].concat()).collect()
}

/// A push of one of the sizes, mostly about 520, or of some more, in any form that can say it. Its data may be opcodes.
pub fn element(rng: &mut Rng) -> Vec<u8> {
    let size = match rng.below(10) {
        0 | 1 => rng.pick(&SIZES[..4]),
        2..=8 => rng.pick(&SIZES[4..]),
        _ => rng.pick(&[500, 600, 776, 1_000, 1_032, 2_000]),
    };
    let byte = rng.pick(&[0x00, 0x07, 0x4d, 0x63, 0x67, 0x68, 0x6a, 0xff]);
    let mut data = vec![byte; size];
    for _ in 0..rng.below(4) {
        let at = rng.below(size);
        data[at] = rng.byte();
    }
    rng.pick(&forms(&data).iter().map(Vec::as_slice).collect::<Vec<_>>()).to_vec()
}

/// The bytes with one to three such pushes set in between instructions: most of them dropped at once, some in an arm or where no
/// run comes, some in place of another push.
pub fn with_elements(rng: &mut Rng, bytes: &[u8]) -> Vec<u8> {
    let mut bytes = bytes.to_vec();
    for _ in 0..if rng.percent(60) { 1 } else { rng.within(2, 3) } {
        let instructions = pushes(&bytes);
        let places: Vec<usize> = instructions.iter().map(|push| push.offset).chain([bytes.len()]).collect();
        let element = element(rng);
        let mut at = rng.pick(&places);
        let mut to = at;
        let piece = match rng.below(16) {
            0..=5 => [&element[..], &[0x75]].concat(),
            // In one arm or the other, alive or dead.
            6 => [&[0x51, 0x63], &element[..], &[0x75, 0x68]].concat(),
            7 => [&[0x51, 0x63, 0x51, 0x67], &element[..], &[0x68, 0x75]].concat(),
            8 => [&[0x51, 0x63, 0x6a], &element[..], &[0x68]].concat(),
            9 => [&[0x51, 0x63, 0x67, 0x6a], &element[..], &[0x68]].concat(),
            10 => [&[0x6a], &element[..]].concat(),
            // Measured, kept on alt for a while, or left.
            11 => [&element[..], &[0x82, 0x6d]].concat(),
            12 => [&element[..], &[0x6b, 0x6c, 0x75]].concat(),
            13 => element,
            // In place of another push.
            _ => {
                let pushed: Vec<_> =
                    instructions.iter().filter(|push| bytes[push.offset] <= 0x4e && push.data.end < bytes.len()).collect();
                if let Some(push) = (!pushed.is_empty()).then(|| pushed[rng.below(pushed.len())]) {
                    (at, to) = (push.offset, push.data.end);
                }
                element
            }
        };
        bytes.splice(at..to, piece);
    }
    bytes
}

#[cfg(test)]
mod tests {
    use super::*;
    use crate::definition::decode;

    #[test]
    fn every_form_says_its_size() {
        for size in SIZES.into_iter().chain([1, 8, 9, 2_000]) {
            let data = vec![7; size];
            let forms = forms(&data);
            assert_eq!(forms.len(), 2 + usize::from(size <= 255) + usize::from(size <= 75), "{size}");
            for form in &forms {
                let instructions = decode(form).unwrap_or_default();
                assert_eq!(instructions.iter().map(|instruction| instruction.data).collect::<Vec<_>>(), [&data[..]], "{size}");
            }
        }
    }

    /// What was decodable stays so, and has such a push.
    #[test]
    fn elements_are_set_in_between() {
        let mut rng = Rng::new(7);
        let mut sizes = [0; 2_001];
        for _ in 0..5_000 {
            let bytes = with_elements(&mut rng, &[0x51, 0x02, 0x63, 0x68, 0x75, 0x75]);
            for instruction in decode(&bytes).unwrap_or_default() {
                sizes[instruction.data.len()] += 1;
            }
        }
        for size in SIZES {
            assert!(sizes[size] > 100, "{size}: {}", sizes[size]);
        }
    }
}

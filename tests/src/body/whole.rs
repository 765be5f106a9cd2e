//! A text and its given records as a whole model: each kind in blocks of its own, all full
//! but the last of a kind.

use super::records::model;
use crate::model::{encode, Model, BLOCK};

/// The number, and how many nodes, statements and blocks the model has.
pub type Words = [u32; 4];

/// The model and its blocks, or the number of the refusal.
pub fn made(text: &[u8], given: &[u8]) -> Result<(Model, Vec<u8>), u32> {
    let m = model(text, given)?;
    let blocks = encode(&m);
    Ok((m, blocks))
}

/// Makes a text and its given records into a model: the blocks are written from the front of
/// the buffer on, as far as it reaches. A refused text writes none and has none.
pub fn make_into(text: &[u8], given: &[u8], buffer: &mut [u8], words: &mut Words) {
    match made(text, given) {
        Err(number) => *words = [number, 0, 0, 0],
        Ok((m, blocks)) => {
            for (room, byte) in buffer.iter_mut().zip(&blocks) {
                *room = *byte;
            }
            let counts = [m.nodes.len(), m.statements.len(), blocks.len() / BLOCK];
            let [nodes, statements, blocks] = counts.map(|n| n as u32);
            *words = [0, nodes, statements, blocks];
        }
    }
}

#[cfg(test)]
mod tests {
    use super::super::limits::{all_given, limits};
    use super::super::records::given;
    use super::*;
    use crate::model::{block, judge};

    /// What a text comes to in a buffer of so many bytes 7.
    fn into(text: &str, given: &[u8], room: usize) -> (Words, Vec<u8>) {
        let (mut buffer, mut words) = (vec![7; room], [9; 4]);
        make_into(text.as_bytes(), given, &mut buffer, &mut words);
        (words, buffer)
    }

    #[test]
    fn blocks_by_hand() {
        // A logic signal that starts at 0, its driver, and `s0 <= (not s0) after 1; wait;`.
        let signal = [1, 0, 0, 0, 2, 0, 0, 0, 0, 0, 0, 0];
        let driver = [0; 12];
        let given = [&[1, 0, 1][..], &signal, &driver].concat();
        let text = "s0 <= (not s0) after 1;\nwait;";
        let process = [0, 0, 2, 0, 0, 0, 0, 0, 0, 0, 0, 0];
        let nodes = [
            [4, 0, 0, 0, 0, 0, 0, 0, 0, 0, 0, 0],
            [6, 0, 0, 0, 0, 0, 0, 0, 0, 0, 0, 0],
            [1, 0, 0, 0, 0, 0, 0, 0, 1, 0, 0, 0],
        ];
        let statements = [
            [2, 0, 0, 0, 1, 0, 2, 0, 0, 0, 0, 0],
            [5, 0, 0, 0, 255, 255, 255, 255, 0, 0, 0, 0],
        ];
        let blocks = [
            block(0, 1, &[signal]),
            block(1, 3, &[process]),
            block(2, 4, &[driver]),
            block(3, 5, &nodes),
            block(4, 6, &statements),
        ]
        .concat();
        assert_eq!(into(text, &given, 2_560), ([0, 3, 2, 5], blocks.clone()));
        // Longer, shorter and no buffers.
        let (words, buffer) = into(text, &given, 2_600);
        assert_eq!(words, [0, 3, 2, 5]);
        assert_eq!(buffer, [&blocks[..], &[7; 40]].concat());
        for room in [0, 1, 511, 512, 2_559] {
            let expected = ([0, 3, 2, 5], blocks[..room].to_vec());
            assert_eq!(into(text, &given, room), expected);
        }
        // Without its driver: 8, and nothing is written.
        let given = [&[1, 0, 0][..], &signal].concat();
        assert_eq!(into(text, &given, 600), ([8, 0, 0, 0], vec![7; 600]));
    }

    #[test]
    fn numbers_in_their_order() {
        let all = given(&all_given());
        let number = |text: &str, given: &[u8]| into(text, given, 0).0[0];
        // No sentence, whatever is given.
        for given in [&[][..], &[255; 20], &all] {
            assert_eq!(number("wait on v0;", given), 26);
        }
        // Bytes that are missing say that there are none.
        assert_eq!(number("null;", &[]), 4);
        assert_eq!(number("null;", &[0]), 4);
        assert_eq!(number("null;", &[0, 0]), 4);
        assert_eq!(number("null;", &[0, 0, 0]), 0);
        assert_eq!(number("null;", &[0, 0, 0, 0]), 4);
        for text in ["wait on s0;", "v0:=1;", "wait for(s3 delayed 1);"] {
            assert_eq!(number(text, &[]), 27, "{text}");
            // Named, though the records are missing.
            assert_eq!(number(text, &[4, 4]), 4, "{text}");
        }
        assert_eq!(number("v0:=1;", &[1]), 27);
        assert_eq!(number("wait on s0;", &[1]), 4);
        assert_eq!(number("wait on s0;", &[1, 0, 0]), 4);
        // A number that is said to be too large names more.
        assert_eq!(number("wait on s31;", &[255, 255, 255]), 4);
        // The made records break a rule too: 27, 4 and 5 come before it.
        assert_eq!(number("s31<='0'after 1;", &[31, 0, 0]), 27);
        let mut short = all.clone();
        short.pop();
        assert_eq!(number("s0<='0'after 1;", &short), 4);
        let mut wrong = all.clone();
        wrong[3] = 9;
        assert_eq!(number("s0<='0'after 1;", &wrong), 5);
        assert_eq!(number("s0<='0'after 1;", &all), 7);
        assert_eq!(number("s0<=0 after 1;", &all), 0);
    }

    #[test]
    fn limits_come_out_as_said() {
        for limit in limits() {
            let room = vec![7; 11_000];
            let (mut buffer, mut words) = (room.clone(), [9; 4]);
            make_into(&limit.text, &limit.given, &mut buffer, &mut words);
            assert_eq!(words[0], limit.number, "{}", limit.name);
            let end = BLOCK * words[3] as usize;
            match words[0] {
                0 => assert_eq!(judge(&buffer[..end]), 0, "{}", limit.name),
                _ => assert_eq!(words[1..], [0; 3], "{}", limit.name),
            }
            assert_eq!(buffer[end..], room[end..], "{}", limit.name);
        }
    }
}

//! Streams that are compared besides the seeded ones.

use super::compare::Stream;
use super::generate;
use super::random::Random;

/// The input that 01 prints, in hex.
const SAMPLE: &str = "04000100 00000100 10000200 0200020000000000 0000010000000100 12001000 000001000200 010007000000 020014000000 \
                      10001300 01000100 07000000 ff000100 02000000 0c001400 010001000200 010000000000";

/// All output that 01 prints for it.
const PRINTED: &str = "a 16 0 1\na 19 0 1\na 20 0 2\nr 0 7/0 20/0\nr 1 7/0 20/0\n";

/// How long the long stream is.
const LONG: usize = 3_000_000;

pub fn sample() -> Stream {
    let digits: Vec<u32> = SAMPLE.chars().filter_map(|digit| digit.to_digit(16)).collect();
    let bytes = digits.chunks(2).map(|pair| (16 * pair[0] + pair[1]) as u8).collect();
    Stream { name: "sample".to_string(), bytes, printed: Some(PRINTED), in_pieces: false }
}

/// The long stream first, since it takes longest; 01's sample; no input; some streams in pieces, and every prefix of each;
/// bytes of chance.
pub fn streams(seed: u64) -> Vec<Stream> {
    let plain = |name: String, bytes: Vec<u8>| Stream { name, bytes, printed: None, in_pieces: false };
    let mut streams = vec![plain("long".to_string(), generate::long(seed, LONG)), sample(), plain("empty".to_string(), Vec::new())];
    for (number, whole) in to_be_cut(seed).into_iter().enumerate() {
        streams.push(Stream { in_pieces: true, ..plain(format!("pieces-{number}"), whole.clone()) });
        streams.extend((0..=whole.len()).map(|length| plain(format!("prefix-{number}-{length}"), whole[..length].to_vec())));
    }
    for number in 0..100 {
        let mut random = Random::new(seed, 1 << 40 | number);
        let length = random.below(200);
        streams.push(plain(format!("bytes-{number}"), (0..length).map(|_| random.next() as u8).collect()));
    }
    streams
}

/// 01's sample, and two short streams that have records of every kind.
fn to_be_cut(seed: u64) -> Vec<Vec<u8>> {
    let random = &mut Random::new(seed, 1 << 41);
    let mut chosen = vec![sample().bytes];
    while chosen.len() < 3 {
        let stream = generate::of_every_kind(random).concat();
        if stream.len() < 900 {
            chosen.push(stream);
        }
    }
    chosen
}

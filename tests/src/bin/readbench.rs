//! How fast texts of 65,535 bytes are read, in MB/s: the second reader and, with the feature `bodies`, the proved one.

use second_kernel::body::lexer::BYTES;
use second_kernel::body::records::read_into;
use std::hint::black_box;
use std::time::Instant;

/// One reader: text, room for nodes and for statements, and its three words.
type Read = fn(&[u8], &mut [u8], &mut [u8], &mut [u32; 3]);

/// A part as often as it fits, and blanks up to the end.
fn full(part: &str) -> String {
    let text = part.repeat(BYTES / part.len());
    format!("{text:BYTES$}")
}

/// The texts by their names, all of them sentences.
fn texts() -> Vec<(&'static str, String)> {
    let mixed = "v0 := ((s1 delayed 3) + (- v2));\nif (v0 < 10) then\n  s3 <= (not '1') after v0;\nelse\n  \
        while (v1 = 'U') loop\n    wait on s0, s1 until (s2 = 5) for 20;\n  end loop;\nend if;\nnull;\n";
    let deep = |open: &str, middle: &str, close: &str| {
        let many = (BYTES - 6 - middle.len()) / (open.len() + close.len());
        format!("v0:={}{middle}{};", open.repeat(many), close.repeat(many))
    };
    vec![
        ("statements of each kind", full(mixed)),
        ("nulls", full("null;")),
        ("numbers", full("v0:=2147483647;")),
        ("blanks", format!("{:BYTES$}", "null;")),
        ("brackets to the left", deep("(", "1", "+1)")),
        ("brackets to the right", deep("(1+", "1", ")")),
        ("minus signs", deep("(-", "1", ")")),
    ]
}

/// The most MB/s of so many rounds.
fn speed(read: Read, text: &[u8], rounds: usize) -> f64 {
    let (mut nodes, mut statements, mut counts) = (vec![0; 500_000], vec![0; 200_000], [0; 3]);
    let mut best = f64::INFINITY;
    for _ in 0..rounds {
        let start = Instant::now();
        read(black_box(text), &mut nodes, &mut statements, &mut counts);
        best = best.min(start.elapsed().as_secs_f64());
        assert_eq!(black_box(counts)[0], 0, "the text is refused");
    }
    text.len() as f64 / best / 1e6
}

fn main() {
    #[cfg(feature = "bodies")]
    const READERS: &[(&str, Read)] = &[
        ("second", read_into),
        ("proved", second_kernel::proved_bodies::read),
    ];
    #[cfg(not(feature = "bodies"))]
    const READERS: &[(&str, Read)] = &[("second", read_into)];
    let head: String = READERS.iter().map(|r| format!("{:>10}", r.0)).collect();
    println!("{:30}{head}", "MB/s");
    for (name, text) in texts() {
        let each = READERS.iter().map(|r| speed(r.1, text.as_bytes(), 50));
        let row: String = each.map(|mb| format!("{mb:10.1}")).collect();
        println!("{name:30}{row}");
    }
}

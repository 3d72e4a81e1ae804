// Hashes a buffer with our SHA-1 or with the sha1 crate's, and prints the digest:
//   sha1 ours|theirs SIZE REPEATS
use sha1::{Digest, Sha1};

extern "C" {
    fn nepuladrim_sha1(bytes: *const u8, length: usize, out: *mut [u8; 20]);
}

fn ours(bytes: &[u8]) -> [u8; 20] {
    let mut out = [0; 20];
    unsafe { nepuladrim_sha1(bytes.as_ptr(), bytes.len(), &mut out) };
    out
}

fn main() {
    let words: Vec<String> = std::env::args().collect();
    let hash = match words[1].as_str() {
        "ours" => ours,
        "theirs" => |bytes: &[u8]| Sha1::digest(bytes).into(),
        word => panic!("{word}: neither ours nor theirs"),
    };
    let size: usize = words[2].parse().unwrap();
    let repeats: usize = words[3].parse().unwrap();
    let bytes: Vec<u8> = (0..size).map(|i| (i * 37 + i / 251) as u8).collect();
    let mut digest = [0; 20];
    for _ in 0..repeats {
        digest = hash(std::hint::black_box(&bytes));
    }
    for byte in digest {
        print!("{byte:02x}");
    }
    println!();
}

//! Judges each FILE: a line with the object that `tor check --json` prints, or with the number of the refusal.
use std::io::Write;

#[repr(C)]
#[derive(Default)]
struct Outcome {
    length: usize,
    offset: usize,
    fault: u32,
}

const OK: u32 = 0;
const BENCODE: u32 = 1;
const NO_ROOM: u32 = 100;

#[link(name = "plovercasket")]
extern "C" {
    fn plover_check(torrent: *const u8, length: usize, report: *mut u8, room: usize, outcome: &mut Outcome) -> u32;
}

/// What a torrent describes, or the line of its refusal.
fn judge(torrent: &[u8]) -> Vec<u8> {
    let mut outcome = Outcome::default();
    let mut report = vec![0; torrent.len() + 1024];
    loop {
        // The slices are what the pointers and lengths say, and lie apart.
        let answer = unsafe {
            plover_check(torrent.as_ptr(), torrent.len(), report.as_mut_ptr(), report.len(), &mut outcome)
        };
        report.resize(outcome.length, 0);
        match answer {
            OK => return report,
            NO_ROOM => continue,
            BENCODE => return format!("V1 B{} at {}", outcome.fault, outcome.offset).into_bytes(),
            _ => return format!("V{answer}").into_bytes(),
        }
    }
}

fn main() -> std::io::Result<()> {
    let mut out = std::io::stdout().lock();
    for place in std::env::args_os().skip(1) {
        out.write_all(&judge(&std::fs::read(place)?))?;
        out.write_all(b"\n")?;
    }
    Ok(())
}

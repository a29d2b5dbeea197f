//! Damaged texts: bytes flipped, inserted, deleted, moved.

use crate::random::Random;

/// Damages the text in one to four places.
pub fn damage(text: &mut Vec<u8>, random: &mut Random) {
    for _ in 0..random.between(1, 4) {
        let at = random.below(text.len() + 1);
        match random.below(6) {
            0 if at < text.len() => text[at] ^= 1 << random.below(8),
            1 if at < text.len() => {
                text.remove(at);
            }
            2 if at < text.len() => text[at] = byte(random),
            3 => text.truncate(at),
            4 => {
                let end = (at + random.below(10)).min(text.len());
                let span = text[at..end].to_vec();
                let to = random.below(text.len() + 1);
                text.splice(to..to, span);
            }
            _ => text.insert(at, byte(random)),
        }
    }
}

/// A byte that a reader may stumble over.
fn byte(random: &mut Random) -> u8 {
    let bytes = *b"\0\xff\r\n\t /\\;=!<>(){}[]0_a\x8012bx..";
    match random.below(3) {
        0 => random.byte(),
        _ => *random.pick(&bytes),
    }
}

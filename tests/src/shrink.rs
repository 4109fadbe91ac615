//! Makes failing texts shorter by deleting bytes, greedily.

use crate::call::{Lent, Texts};
use std::time::{Duration, Instant};

/// Time after which the shrinking stops with what it has.
const PATIENCE: Duration = Duration::from_secs(10);

/// The shortest texts found that still fail, starting from ones that do: first the plan, then what
/// is put into it.
pub fn shrink(texts: Lent, fails: impl Fn(Lent) -> bool) -> Texts<Vec<u8>> {
    let source = &shorter(texts.source, |source| fails(Texts { source, ..texts }))[..];
    let key = &shorter(texts.key, |key| {
        fails(Texts {
            source,
            key,
            ..texts
        })
    })[..];
    let value = &shorter(texts.value, |value| fails(Texts { source, key, value }))[..];
    Texts { source, key, value }.kept()
}

/// The same for one of the texts.
fn shorter(text: &[u8], fails: impl Fn(&[u8]) -> bool) -> Vec<u8> {
    let deadline = Instant::now() + PATIENCE;
    let mut best = text.to_vec();
    let mut chunk = best.len().div_ceil(2);
    while chunk > 0 && Instant::now() < deadline {
        let before = best.len();
        let mut start = 0;
        while start + chunk <= best.len() && Instant::now() < deadline {
            let shorter = [&best[..start], &best[start + chunk..]].concat();
            if fails(&shorter) {
                best = shorter;
            } else {
                start += 1 + chunk / 4;
            }
        }
        // Single bytes again and again, as long as a pass still finds one to delete.
        if chunk > 1 || best.len() == before {
            chunk /= 2;
        }
    }
    best
}

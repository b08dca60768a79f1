//! Fresh at every length: 129 words become zeros, any others stay and are 1.

use super::met::Met;
use crate::kiosk::fresh as empty;
use crate::kiosk::plain::WORDS;
use crate::parts::Compared;
use crate::random::Random;

pub fn fresh(_: &mut Random, _: &mut Met) -> Compared {
    const LONGEST: usize = 2 * WORDS + 2;
    for words in 0..=LONGEST {
        let mut kiosk = vec![0xabcd_ef01; LONGEST + 4];
        let number = empty(&mut kiosk[..words]);
        let zeros = if words == WORDS { WORDS } else { 0 };
        let kept = kiosk[..zeros].iter().all(|&word| word == 0) && kiosk[zeros..].iter().all(|&word| word == 0xabcd_ef01);
        if number != (words != WORDS) as u32 || !kept {
            return Err(format!("fresh on {words} words answers {number}, or has written elsewhere"));
        }
    }
    Ok(LONGEST as u64 + 1)
}

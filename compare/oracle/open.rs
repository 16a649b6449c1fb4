//! What opens the Rust's private parts to the driver: it stands below the module `ubc_check`, and so below the Rust's root,
//! and neither lib.rs nor compress.rs needs a change.

use crate::{Builder, DetectionState, Sha1};
use shape::State;

impl Sha1 {
    /// A hasher in this state.
    pub fn from_state(s: &State) -> Sha1 {
        let mut detection = detection(s.detect, s.mitigate, s.lent || s.conditions, s.reduced);
        if let Some(ctx) = &mut detection {
            ctx.found_collision = s.mark;
        }
        let mut hasher = Sha1 { h: s.words, block_len: s.blocks, detection, buffer: Default::default() };
        hasher.buffer.digest_blocks(&s.pending[..s.fill as usize], |_| unreachable!());
        hasher
    }

    /// The state of a hasher. With detection off the Rust keeps no other flag, so `given` supplies them; so it does the first
    /// mark, of which the Rust keeps nothing.
    pub fn state(&self, given: &State) -> State {
        let mut s = *given;
        s.words = self.h;
        s.blocks = self.block_len;
        s.fill = self.buffer.get_pos() as u64;
        // The Rust leaves old bytes behind the pending ones; nobody reads them, and the paper has zeros there.
        s.pending = [0; 64];
        s.pending[..self.buffer.get_pos()].copy_from_slice(self.buffer.get_data());
        s.detect = self.detection.is_some();
        s.mark = false;
        if let Some(ctx) = &self.detection {
            s.mark = ctx.found_collision;
            s.mitigate = ctx.safe_hash;
            // The Rust knows one way to select, so `given` says which of the two it stood for.
            s.lent = ctx.ubc_check && !given.conditions;
            s.conditions = ctx.ubc_check && given.conditions;
            s.reduced = ctx.reduced_round_collision;
        }
        s
    }
}

pub fn detection(detect: bool, mitigate: bool, selects: bool, reduced: bool) -> Option<DetectionState> {
    Builder::default()
        .detect_collision(detect)
        .safe_hash(mitigate)
        .use_ubc(selects)
        .reduced_round_collision(reduced)
        .into_detection_state()
}

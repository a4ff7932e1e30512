//! Document 01, "Numbers returned", as far as Load, Step and Write give them.
//! Those of Placing stand in `placing`.

pub use crate::placing::{ACCEPTED, SHORT_OUTPUT};

/// "Plan under 5 bytes, or not its length field."
pub const PLAN_LENGTH: u32 = 1;
/// "Plan version."
pub const PLAN_VERSION: u32 = 2;
/// "N or M."
pub const PLAN_COUNTS: u32 = 3;
/// "Length is not 5 + 4N + 6M", in version 2 10M.
pub const PLAN_SIZE: u32 = 4;
/// "Rule."
pub const PLAN_RULE: u32 = 5;
/// "Belt fields or order", "a least mass above the greatest".
pub const PLAN_CHANNEL: u32 = 6;
/// "Over 4 belts in or out."
pub const PLAN_DEGREE: u32 = 7;
/// "State not 61,440 bytes, or (not for Load) damaged."
pub const STATE: u32 = 8;
/// "Frame under 5 bytes, or not its length field."
pub const FRAME_LENGTH: u32 = 9;
/// "Frame version."
pub const FRAME_VERSION: u32 = 10;
/// "Kind not 1..5, or length not the kind's"; kind 6 is Trim since, 7 Ask, 8 Commit.
pub const FRAME_KIND: u32 = 11;
/// "1,000,000 steps accepted", of the caller's.
pub const STEPS_USED_UP: u32 = 12;
/// "No such node or belt."
pub const NO_SUCH_PLACE: u32 = 13;
/// "Feed not to an infeed; Crash or Recover of an infeed or outfeed." This and 15 read
/// Ask and Commit "as Recover".
pub const WRONG_PLACE: u32 = 14;
/// "Crash of a down node; Send, Take with an end down; Recover of a node not
/// down."
pub const WRONG_STATUS: u32 = 15;
/// "Crash of a node joined by a belt to one crashed earlier in the run."
pub const CRASHED_NEIGHBOUR: u32 = 16;
/// "Material over 15, zero byte not 0"; request 2026-05 lets a tick through.
pub const WRONG_RECORD: u32 = 17;
/// "Nothing to send or take."
pub const NOTHING_THERE: u32 = 18;
/// "Belt holds 8."
pub const CHANNEL_FULL: u32 = 19;
/// "Take on a complete row while replaying."
pub const ROW_COMPLETE: u32 = 20;
/// "The step needs space that the log or held list lacks, or over 64 targets."
pub const NO_SPACE: u32 = 21;
/// "No placing exists; targets give one time two inputs or one input two
/// times; a target not held when rows are complete."
pub const NO_REPLAY: u32 = 24;
/// "A console above 3, after 11."
pub const NO_SUCH_CONSOLE: u32 = 25;
/// "After 13, a Trim while a node is down or replaying."
pub const SOME_NOT_UP: u32 = 26;
/// "After 16, a Commit without a kept answer."
pub const NOTHING_KEPT: u32 = 27;

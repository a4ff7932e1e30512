// What the rows of the counts stand under; conditions stand under the paper's
// words.

pub const STATES: &str = "states, by kind";
pub const REACHED: &str = "states that frames lead to";
pub const HARMLESS: &str = "no damage";
pub const FIELDS: &str = "one field changed";
pub const SETS: &str = "each log entry's set changed";
pub const KEPT: &str = "each byte of a node that keeps an answer changed";
pub const SHUFFLES: &str = "slots and blocks moved";
pub const SCRAMBLES: &str = "random bytes";
pub const LOAD: &str = "Load";
pub const LOADED: &str = "Load of plans as long as their field says";
pub const WRITE: &str = "Write";
pub const WRITE_AGAIN: &str = "Write of what the engine has loaded";

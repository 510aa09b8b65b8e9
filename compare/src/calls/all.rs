//! All the calls.

use crate::calls::{answers, capture, event, sheet, trace};
use crate::running::call::Call;

/// The calls, in the order in which they came to be.
pub const CALLS: &[&Call] = &[&event::CALL, &trace::CALL, &sheet::CALL, &capture::CALL, &answers::CALL];

/// The call of a name.
pub fn call(name: &str) -> Option<&'static Call> {
    CALLS.iter().copied().find(|call| call.name == name)
}

//! Requests: well formed by their parts, and broken in each way; and reply space for them.

mod aimed;
mod broken;
mod encode;
mod replies;

pub use aimed::{any, any_data_request, any_lease_request};
pub use broken::{broken, unknown};
pub use encode::encode;
pub use replies::{extents, reply_length, reply_space};

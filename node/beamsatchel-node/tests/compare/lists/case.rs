use crate::case::Case;

/// One call beside a list.
#[derive(Clone)]
pub struct ListedCase {
    pub case: Case,
    pub list: Vec<u8>,
}

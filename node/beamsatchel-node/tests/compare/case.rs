/// One call of apply.
#[derive(Clone)]
pub struct Case {
    pub container: Vec<u8>,
    pub request: Vec<u8>,
    /// The reply space with the bytes that it has before the request.
    pub reply: Vec<u8>,
}

// bytesize: a size in the header of write_model, which is cut off; printed as a plain number.
pub struct ByteSize(pub u64);

impl ByteSize {
    pub fn to_string_as(&self, _: bool) -> String {
        self.0.to_string()
    }
}

impl std::fmt::Display for ByteSize {
    fn fmt(&self, f: &mut std::fmt::Formatter) -> std::fmt::Result {
        self.0.fmt(f)
    }
}

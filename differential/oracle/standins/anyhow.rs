// anyhow: any error, boxed; the context that the builder adds to one is dropped.
pub type Result<T> = std::result::Result<T, Box<dyn std::error::Error>>;

pub trait Context<T> {
    fn context(self, text: &str) -> Result<T>;
}

impl<T, E: std::error::Error + 'static> Context<T> for std::result::Result<T, E> {
    fn context(self, _: &str) -> Result<T> {
        Ok(self?)
    }
}

//! Bytes as capital hex digits.

pub struct Display<'a>(&'a [u8]);
pub fn display(b: &[u8]) -> Display<'_> {
    Display(b)
}
impl std::fmt::UpperHex for Display<'_> {
    fn fmt(&self, f: &mut std::fmt::Formatter<'_>) -> std::fmt::Result {
        for b in self.0 {
            write!(f, "{b:02X}")?;
        }
        Ok(())
    }
}

//! Stands in for cbm/mod.rs and cbm/petscii.rs.

pub mod petscii {
    /// A Petscii string. The one of mos looks characters up in a table that reaches 120 of the 256
    /// bytes; this one takes the character numbered n as byte n, so that every byte can be asked.
    pub struct Petscii(Vec<u8>);

    impl Petscii {
        // One byte for each character; a character above 255 is refused.
        #[allow(clippy::should_implement_trait)]
        pub fn from_str(string: &str) -> Petscii {
            Petscii(
                string
                    .chars()
                    .map(|c| u8::try_from(c as u32).unwrap())
                    .collect(),
            )
        }

        // The bytes.
        pub fn as_bytes(&self) -> &[u8] {
            &self.0
        }
    }
}

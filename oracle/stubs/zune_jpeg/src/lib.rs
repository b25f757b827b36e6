//! Stand-in for zune_jpeg. Document 01: "`SampleFactor` is its number, 1 to 4."
pub mod sample_factor {
    #[derive(Debug, Clone, Copy)]
    pub struct SampleFactor(pub u8);

    impl SampleFactor {
        pub fn u8(self) -> u8 {
            self.0
        }

        pub fn u32(self) -> u32 {
            self.0.into()
        }

        pub fn usize(self) -> usize {
            self.0.into()
        }
    }
}

//! Stand-in: holds the scalar pipeline, and opens what the published files keep to themselves.
pub mod scalar {
    include!("scalar/mod.rs");

    pub mod open {
        pub use super::{
            coef::ScalarCoef, dct_gradient::dct_gradient, projection::project_onto_box, tgv::tgv_gradient,
            tv::tv_gradient,
        };
    }
}

/// Left out: lib.rs re-exports these names.
pub mod simd {
    pub mod traits {
        pub trait FromSlice {}
        pub trait SafeDiv {}
        pub trait WriteTo {}
    }
}

/// For the oracle's programs: types, functions and private methods of the published files.
pub mod open {
    pub use super::scalar::{open::*, solve};
    pub use crate::{
        jpeg::{Coefficient, Jpeg},
        utils::{auxiliary, blocks, dct},
    };
    use crate::{AlignedF32, Artefact, image::RgbImage};
    pub use zune_jpeg::sample_factor::SampleFactor;

    pub fn solve_cpu(settings: &Artefact, jpeg: &Jpeg, w: u32, h: u32) -> Vec<AlignedF32> {
        settings.solve_cpu(jpeg, w, h, (w * h) as usize)
    }

    pub fn finish(settings: &Artefact, jpeg: &Jpeg, planes: Vec<AlignedF32>, w: u32, h: u32) -> RgbImage {
        settings.finish(jpeg, planes, w, (w * h) as usize).expect("no benchmark mode")
    }
}

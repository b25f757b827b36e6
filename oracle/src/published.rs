//! The published Rust on a sheet, of a range (M-105) by its half sum: `each` as it was published, `once` with the one line more by which the start's blocks are reordered once (M-102; `artefact/build.rs`).

macro_rules! built {
    ($name:ident, $built:ident) => {
        pub mod $name {
            use crate::sheet::{Channel, Sheet, Weight};
            use $built::{
                Artefact, ValueCollection,
                pipeline::open::{self, Coefficient, Jpeg, SampleFactor},
            };

            pub fn coefficient(c: &Channel) -> Coefficient {
                Coefficient {
                    rounded_px_w: c.w,
                    rounded_px_h: c.h,
                    rounded_px_count: c.w * c.h,
                    block_w: c.w / 8,
                    block_h: c.h / 8,
                    block_count: c.w * c.h / 64,
                    horizontal_samp_factor: SampleFactor(c.across as u8),
                    vertical_samp_factor: SampleFactor(c.down as u8),
                    dct_coefs: c.levels.half_sums(),
                    quant_table: std::array::from_fn(|i| c.table[i] as f32),
                }
            }

            pub fn settings(sheet: &Sheet) -> Artefact {
                Artefact::default()
                    .weight(ValueCollection::ForEach(sheet.smoothing.map(Weight::value)))
                    .pweight(ValueCollection::ForEach(sheet.data.map(Weight::value)))
                    .iterations(ValueCollection::ForEach(sheet.counts.map(|n| n as usize)))
                    .separate_components(!sheet.joint)
            }

            pub fn jpeg(sheet: &Sheet) -> Jpeg {
                Jpeg {
                    nchannel: sheet.channels.len() as u32,
                    real_px_w: sheet.picture_w,
                    real_px_h: sheet.picture_h,
                    coefs: sheet.channels.iter().map(coefficient).collect(),
                }
            }

            /// The planes of a run of these channels.
            pub fn solve(
                owns: &[Channel],
                weight: f32,
                pweight: [f32; 3],
                iterations: usize,
                [w, h]: [u32; 2],
            ) -> Vec<Vec<f32>> {
                let given = owns.iter().map(coefficient).collect();
                let planes = open::solve(owns.len(), given, weight, pweight, iterations, w, h, (w * h) as usize);
                planes.iter().map(|plane| plane.to_vec()).collect()
            }

            /// The planes of a sheet.
            pub fn solve_cpu(sheet: &Sheet) -> Vec<Vec<f32>> {
                let planes = open::solve_cpu(&settings(sheet), &jpeg(sheet), sheet.w, sheet.h);
                planes.iter().map(|plane| plane.to_vec()).collect()
            }
        }
    };
}

built!(each, artefact);
built!(once, artefact_once);

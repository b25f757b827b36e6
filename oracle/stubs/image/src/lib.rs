//! Stand-in for image: a picture of RGB bytes, rows from the top.
use std::marker::PhantomData;

pub struct Rgb<T>(pub [T; 3]);

pub struct ImageBuffer<P, C> {
    pub width: u32,
    pub height: u32,
    pub bytes: C,
    pixel: PhantomData<P>,
}

pub type RgbImage = ImageBuffer<Rgb<u8>, Vec<u8>>;

impl RgbImage {
    pub fn from_fn(width: u32, height: u32, f: impl Fn(u32, u32) -> Rgb<u8>) -> Self {
        let places = (0..height).flat_map(|y| (0..width).map(move |x| (x, y)));
        let bytes = places.flat_map(|(x, y)| f(x, y).0).collect();
        Self { width, height, bytes, pixel: PhantomData }
    }
}

//! Stands for the settings of the crate's tile decoders. It decides no compared answer: no table here
//! is an image, and the programs never make a `BinaryTableData`, the only user of `Pixels`.

pub mod dithering;
pub mod pixels;
pub mod rice;

use crate::hdu::header::extension::bintable::{BinTable, TileCompressedImage, ZQuantiz};
use crate::hdu::header::Header;
use std::fmt::Debug;

pub trait Keywords: Debug {}

#[derive(Debug)]
pub struct U8Keywords;
#[derive(Debug)]
pub struct I16Keywords;
#[derive(Debug)]
pub struct I32Keywords;

impl Keywords for U8Keywords {}
impl Keywords for I16Keywords {}
impl Keywords for I32Keywords {}

#[derive(Debug)]
pub enum Quantiz {
    NoDither,
    SubtractiveDither1 { i1: usize },
    SubtractiveDither2 { i1: usize },
}

macro_rules! float_keywords {
    ($name:ident) => {
        #[derive(Debug)]
        pub struct $name {
            pub z_scale_idx: usize,
            pub z_zero_idx: usize,
            pub scale: f32,
            pub zero: f32,
            pub z_dither_0: i64,
            pub(crate) z_quantiz: ZQuantiz,
            pub quantiz: Quantiz,
            pub z_blank_idx: Option<usize>,
            pub z_blank: Option<i32>,
        }

        impl Keywords for $name {}

        impl $name {
            pub fn unquantize(&mut self, _: i32) -> f32 {
                unreachable!("no table here is a compressed image")
            }
        }
    };
}
float_keywords!(F32Keywords);
float_keywords!(F64Keywords);

#[derive(Debug)]
pub struct TileDesc<K> {
    pub keywords: K,
    pub n_pixels: u64,
    pub remaining_pixels: u64,
}

impl<K> TileDesc<K> {
    pub fn new(_: &Header<BinTable>, _: &TileCompressedImage) -> Self {
        unreachable!("no table here is a compressed image")
    }
}

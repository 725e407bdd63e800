//! Stands for the crate's list of random values. It decides no compared answer: no pixel is made.

pub const RAND_VALUES: [f32; 10000] = [0.0; 10000];

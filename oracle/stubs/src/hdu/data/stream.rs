//! Stands for the crate's asynchronous stream of values. It decides no compared answer: none is made.

use std::marker::PhantomData;

pub struct St<'a, R, T> {
    pub reader: &'a mut R,
    pub n: &'a mut usize,
    values: PhantomData<T>,
}

impl<'a, R, T> St<'a, R, T> {
    pub fn new(reader: &'a mut R, n: &'a mut usize) -> Self {
        St {
            reader,
            n,
            values: PhantomData,
        }
    }
}

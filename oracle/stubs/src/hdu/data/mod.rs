//! Stands for the list of the crate's data modules and its asynchronous reading. It decides no
//! compared answer: nothing is read asynchronously.

pub mod bintable;
pub mod iter;
pub mod stream;

pub trait AsyncDataBufRead<'a, X> {
    type Data;

    fn prepare_data_reading(ctx: &X, n: &'a mut usize, reader: &'a mut Self) -> Self::Data;
}

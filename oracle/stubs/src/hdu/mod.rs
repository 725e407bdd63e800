//! Stands for the crate's HDU types. It decides no compared answer: the trait is never called, since
//! the programs make a `TableData` themselves.

pub mod data;
pub mod header;

pub use crate::card::Value;
pub use crate::error::Error;

use std::fmt::Debug;

pub trait FitsRead<'a, X> {
    type Data: Debug + 'a;

    fn read_data_unit(&'a mut self, header: &header::Header<X>, start_pos: u64) -> Self::Data
    where
        Self: Sized;
}

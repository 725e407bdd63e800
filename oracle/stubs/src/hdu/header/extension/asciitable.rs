//! Stands for ASCII tables. It decides no compared answer: it is empty, and every table is binary.

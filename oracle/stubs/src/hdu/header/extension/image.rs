//! Stands for images. It decides no compared answer: it is empty, and every extension is a table.

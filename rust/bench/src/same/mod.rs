//! The same jobs by the library's own methods, within what document 01 asks for, in idiomatic safe Rust: check goes over the lists in the order of its
//! conditions, with a byte mark for each edge and a list of the edges reached; the labelling has labels, order and the pending ring in arrays that start
//! all zero; positions and branch visits go by the tables, the runs by the heights, the list by one word that is changed in place. Nothing is copied that
//! Rust need not copy: books and runs are altered in their place.
pub mod book;
pub mod check;
pub mod drawing;
pub mod invariants;
pub mod labelling;
pub mod lister;
pub mod positions;
pub mod reading;
pub mod ring;
pub mod run;
pub mod sheets;
pub mod upto;

//! Document 02, Notes 4 and 5: the scenarios reach refusals with 23 and 24 of many
//! shapes, and a library that tells another variable, tells one elsewhere or tests
//! in another order is found out.

mod answers;
mod faults;
mod shapes;
mod wrong;

//! Document 02, Note 6: the scenarios reach sets of all four words, and a library
//! that treats some of the words otherwise is found out.

mod calls;
mod steps;
mod tally;
mod words;

//! The header says what the library does. Its declarations are those of the Rattle sources, and the wrapper's
//! too; its numbers are the wrapper's; its sizes are the library's limits; its texts are the wrapper's. It is
//! compiled as C99, C11 and C++17 with warnings as errors, and programs in C and C++ are linked and run.
//!
//! These tests want a checkout, a C compiler (`cc`, or what `CC` names) and a C++ compiler (`c++`, or what `CXX`
//! names). They fail, and say so, if one of them is not there. A release has none of them.
mod compiler;
mod declarations;
mod declared;
mod from_c;
mod numbers;
mod pages;
mod sizes;
mod texts;

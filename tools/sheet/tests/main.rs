//! All tests of the program and its library, one program of them: each program of tests is compiled and linked anew.

mod alike;
mod amounts;
mod choosing;
mod columns;
mod commands;
mod common;
mod desk;
mod faults;
mod json;
mod listing;
mod merge;
mod office;
mod pairs;
mod parts;
mod program;
mod round_trip;
mod rules;
mod schema;
mod watching;
mod why;

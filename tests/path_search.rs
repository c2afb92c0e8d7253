//! Tests of the crate `path_search`.

mod graphs;
mod links;

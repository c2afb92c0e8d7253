//! Tests of `example_parcels`, whose types are compiled from two modules. That of parcels has every
//! form of the notation.

mod octets;
mod reading;
mod refusals;
mod visits;
mod writing;

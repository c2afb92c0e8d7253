//! Tests of cursors over a small tree. `tests/programs/cursors` has those over a certificate.

mod elements;

// Probes into bpm.rs.

crate::probes! { super => }

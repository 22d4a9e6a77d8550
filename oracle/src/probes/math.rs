// Probes into math.rs.

crate::probes! { super =>
    fn lrint_f64(v: f64) -> f64;
    fn lrint_f32(v: f32) -> i32;
}

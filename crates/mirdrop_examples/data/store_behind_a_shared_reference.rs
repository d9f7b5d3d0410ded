struct D(i32);
impl Drop for D { fn drop(&mut self) {} }
fn take(x: D) {}
fn f(r: &D) { r.0 = 1; } fn main() {}

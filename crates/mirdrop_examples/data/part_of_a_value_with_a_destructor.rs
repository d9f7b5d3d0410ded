struct D(i32);
impl Drop for D { fn drop(&mut self) {} }
fn take(x: D) {}
struct H(D);
impl Drop for H { fn drop(&mut self) {} }
fn main() { let h = H(D(1)); take(h.0); }

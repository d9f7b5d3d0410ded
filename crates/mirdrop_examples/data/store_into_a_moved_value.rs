struct D(i32);
impl Drop for D { fn drop(&mut self) {} }
fn take(x: D) {}
fn main() { let t = (D(1), D(2)); let s = t; t.0 = D(3); }

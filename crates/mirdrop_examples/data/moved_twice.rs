struct D(i32);
impl Drop for D { fn drop(&mut self) {} }
fn take(x: D) {}
fn main() { let x = D(1); take(x); take(x); }

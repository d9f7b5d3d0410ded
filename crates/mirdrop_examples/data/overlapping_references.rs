struct D(i32);
impl Drop for D { fn drop(&mut self) {} }
fn take(x: D) {}
fn two(a: &mut D, b: &D) {}
fn main() { let mut x = D(1); two(&mut x, &x); }

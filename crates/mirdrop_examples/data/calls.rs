struct D(i32);
impl Drop for D { fn drop(&mut self) { done(); } }
fn make() { let d = D(1); print(1); }
fn done() { print(2); }
fn main() { make(); make(); }

struct T(i32);
impl Drop for T { fn drop(&mut self) { self.0 = 0; } }
fn main() {}

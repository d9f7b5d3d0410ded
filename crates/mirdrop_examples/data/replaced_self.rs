struct T(i32);
impl Drop for T { fn drop(&mut self) { *self = T(0); } }
fn main() {}

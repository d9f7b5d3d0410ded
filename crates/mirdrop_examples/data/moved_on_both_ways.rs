struct D(i32);
impl Drop for D { fn drop(&mut self) {} }
fn main() { let x = D(1); let y = x; if true { let z = x; } else { let w = x; } }

struct D(i32);
impl Drop for D { fn drop(&mut self) {} }
enum E { V(D) }
fn main() { let e = E::V(D(1)); let E::V(d) = e; let E::V(f) = e; }

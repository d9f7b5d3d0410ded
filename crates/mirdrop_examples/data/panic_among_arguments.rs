struct D(i32);
impl Drop for D {
    fn drop(&mut self) {}
}
fn take(x: D) {}
fn a() -> D {
    D(1)
}
fn t() -> D {
    D(2)
}
fn g(r: &D) -> D {
    D(3)
}
fn f(x: D, y: D, z: D) {}
fn main() {
    f(a(), g(&t()), panic!());
}

struct D(i32);
impl Drop for D {
    fn drop(&mut self) {}
}
fn take(x: D) {}
fn g(r: &D) -> i32 {
    5
}
fn h() -> i32 {
    let x = D(1);
    g(&D(2))
}
fn main() {
    print(h());
}

struct D(i32);
impl Drop for D {
    fn drop(&mut self) {}
}
fn take(x: D) {}
fn pair() -> (D, D) {
    (D(1), D(2))
}
fn main() {
    let (a, _) = pair();
    print(7);
}

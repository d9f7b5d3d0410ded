struct D(i32);
impl Drop for D {
    fn drop(&mut self) {}
}
fn take(x: D) {}
fn p((x, _): (D, D), (_, y): (D, D)) {}
fn main() {
    p((D(1), D(2)), (D(3), D(4)));
}

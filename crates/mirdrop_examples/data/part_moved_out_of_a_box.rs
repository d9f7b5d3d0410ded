struct D(i32);
impl Drop for D {
    fn drop(&mut self) {}
}
fn take(x: D) {}
fn main() {
    let b = Box::new((D(1), D(2)));
    take(b.0);
}

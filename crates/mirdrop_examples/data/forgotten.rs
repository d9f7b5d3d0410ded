struct D(i32);
impl Drop for D {
    fn drop(&mut self) {}
}
fn take(x: D) {}
fn main() {
    forget((D(1), Box::new(D(2))));
}

struct D(i32);
impl Drop for D {
    fn drop(&mut self) {}
}
fn main() {
    let b = Box::new(D(1));
    forget(*b);
}

struct D(i32);
impl Drop for D {
    fn drop(&mut self) {}
}
fn main() {
    let x: D;
}

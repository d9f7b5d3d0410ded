struct D(i32);
impl Drop for D {
    fn drop(&mut self) {}
}
fn take(x: D) {}
fn main() {
    loop {
        (D(1), D(2), (D(3), D(4), break), D(5));
    }
}

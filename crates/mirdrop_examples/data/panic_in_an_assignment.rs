struct N(i32);
impl Drop for N {
    fn drop(&mut self) {
        if self.0 < 0 {
            panic!()
        }
    }
}
fn main() {
    let mut x = N(-1);
    x = N(2);
}

struct N(i32);
impl Drop for N {
    fn drop(&mut self) {
        if self.0 < 0 {
            panic!()
        }
    }
}
fn h(p: N) -> N {
    N(5)
}
fn main() {
    h(N(-1));
}

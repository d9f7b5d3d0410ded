struct N(i32);
impl Drop for N {
    fn drop(&mut self) {
        if self.0 < 0 {
            panic!()
        }
    }
}
struct S {
    a: N,
    b: N,
    c: N,
}
fn main() {
    let s = S { a: N(-1), b: N(-2), c: N(3) };
}

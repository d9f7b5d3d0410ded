struct N(i32);
impl Drop for N {
    fn drop(&mut self) {
        if self.0 == 7 {
            panic!()
        }
    }
}
struct S {
    a: N,
    b: N,
    c: N,
}
fn take(x: N) {}
fn main() {
    let s = S { a: N(ask()), b: N(ask()), c: N(ask()) };
    take(s.b);
}

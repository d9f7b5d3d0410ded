struct D(i32);
impl Drop for D {
    fn drop(&mut self) {}
}
fn take(x: D) {}
enum J {
    None,
    One(D, i32),
}
fn main() {
    let j = J::One(D(1), 4);
    match j {
        J::One(d, n) if n == ask() => take(d),
        J::One(_, n) => print(n),
        J::None => {}
    }
}

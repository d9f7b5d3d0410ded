struct D(i32);
impl Drop for D {
    fn drop(&mut self) {}
}
fn take(x: D) {}
struct E(i32);
impl Drop for E {
    fn drop(&mut self) {}
}
trait Show {
    fn show(&self);
}
impl Show for D {
    fn show(&self) {
        print(self.0);
    }
}
impl Show for E {
    fn show(&self) {
        print(9);
    }
}
fn pick() -> Box<dyn Show> {
    if ask() == 0 { Box::new(D(1)) } else { Box::new(E(2)) }
}
fn run(b: Box<dyn Show>) {
    b.show();
    panic!();
}
fn main() {
    run(pick());
}

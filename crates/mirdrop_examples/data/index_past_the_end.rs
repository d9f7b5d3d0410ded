struct D(i32);
impl Drop for D {
    fn drop(&mut self) {}
}
fn take(x: D) {}
fn main() {
    let a = [D(5), D(6)];
    let i: usize = 2;
    print(a[i].0);
}

struct D(i32);
impl Drop for D {
    fn drop(&mut self) {}
}
fn take(x: D) {}
fn main() {
    let a = D(1);
    let b = D(2);
    let c = move [b, a] |n: i32| {
        print(n);
        take(a);
    };
}

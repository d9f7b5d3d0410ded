struct D(i32);
impl Drop for D {
    fn drop(&mut self) {}
}
fn take(x: D) {}
fn main() {
    let x = 'a: loop {
        let y = D(1);
        loop {
            break 'a 7;
        }
    };
    print(x);
}
